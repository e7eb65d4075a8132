# Parts of texts: the same work as parts.lines, in AWK's words.
{
  name = toupper(substr($5, 3, 20));
  n = n + length(name) + index(name, "ER");
  c = c + gsub("E", "3", name);
  s = s + split($5, piece, "e");
  print substr($2, 3, 4), name, piece[1];
}
END { print n, c, s; }
