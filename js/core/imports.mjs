// The 56 imports of a compiled module: the words that each takes and gives, and what the words stand for.
//
// Arguments: h a value, k a value that stays, n a number, a an array, t an iterator, p a text in memory (two words), o a comparison, s a special
// variable, f a fault, b a flag, d a destination, m the kind of a name, c a count, r a raw number. Answers: h a value, e a value or -2, n a 64-bit
// number, i a 32-bit one, c 0 for what is done, - nothing.

const I32 = 0x7f;
const I64 = 0x7e;

const ROWS = `num n h; lit p h; uninit . h; dup k h; to_num h n; int_of h n; truth h i; compare ohh i; concat hh h; pow nn n; fail f -;
  get_special s h; set_special sh c; field n h; set_field nh c; new_array . i; elem ah h; set_elem ahh c; has ah i; delete ah c; join hh h; iter a i;
  iter_next t e; length h n; matches hh i; match hh n; sub hhhb n; sub_result . h; split hahb n; substr hnn h; substr_from hn h; index hh n; lower h h;
  upper h h; next_main . i; getline . i; getline_var . i; getline_file h i; getline_var_file h i; line . h; declare pm -; start_assign . i;
  pending_name . i; pending_value . h; begin_end . -; close h i; arg h -; sprintf c h; print cd c; printf cd c; drop h -; iter_free r -; free_array r -;
  next_file . c; clear a c; flush h i`;

const wordsOf = (letter) => (letter === "n" ? [I64] : letter === "p" ? [I32, I32] : [I32]);

/** Each import by its name: letters of the arguments and of the answer, and the types of its words. */
export const IMPORTS = new Map(ROWS.split(";").map((row) => {
  const [name, letters, answer] = row.trim().split(" ");
  const args = letters === "." ? [] : [...letters];
  return [name, { args, answer, params: args.flatMap(wordsOf), results: answer === "-" ? [] : wordsOf(answer === "n" ? "n" : "h") }];
}));

/** How many of the imports the module `awk1` has, the first ones; `awk2` has all. */
const OF_AWK1 = 53;
const FIRST = new Set([...IMPORTS.keys()].slice(0, OF_AWK1));

/** The import that a module names so, or undefined. */
export function importOf(module, name) {
  return module === "awk2" || (module === "awk1" && FIRST.has(name)) ? IMPORTS.get(name) : undefined;
}

/** The functions of `act` by the names of their modules. The objects have no prototype, so nothing else can be had through them. */
export function moduleObjects(functionOf) {
  const objects = { __proto__: null, awk1: { __proto__: null }, awk2: { __proto__: null } };
  for (const name of IMPORTS.keys()) {
    objects.awk2[name] = functionOf(name);
    if (FIRST.has(name)) objects.awk1[name] = objects.awk2[name];
  }
  return objects;
}
