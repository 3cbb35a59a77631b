# Fills a page: in place of each @NAME@ it writes the variable NAME of the environment, exactly as it is, and never a second time.
{
  filled = ""
  while (match($0, /@[A-Z]+@/)) {
    filled = filled substr($0, 1, RSTART - 1) ENVIRON[substr($0, RSTART + 1, RLENGTH - 2)]
    $0 = substr($0, RSTART + RLENGTH)
  }
  print filled $0
}
