# Makes of a page of help on mcf that on mcf-wide: its name in front of a command, and its limits.
s/\bmcf \(COMMAND\|FILE\|-\|[a-z]\{1,\} \|[a-z]\{1,\}$\)/mcf-wide \1/g
s/\b2 to 512\b/2 to 1000/
s/\b1 to 32768\b/1 to 1048576/
s/\b2097152\b/1073741824/
s/\[8192\]/[524288]/
