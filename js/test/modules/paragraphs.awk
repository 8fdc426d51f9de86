BEGIN { RS = "" }
{ print NR, $1, $NF; getline line < "f"; print line }
