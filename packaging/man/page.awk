# A manual page in man(7) of lines of Markdown, which stand on the input. A line with an @ includes something:
#   @name TEXT                    the page's name, with what it is
#   @help LINE                    a line of the program's help of a command
#   @section FILE HEADING         what stands below the heading, with its subsections, or without any where the heading ends in #
#   @subsections FILE HEADING     the heading's subsections, each as a section of the page
#   @paragraph FILE TEXT          the paragraph that begins with the text
#   @row FILE HEADING # TEXT      of the table below the heading, the row whose first cell has the text
#   @head FILE                    the paragraph below a document's title
#   @all FILE                     all sections of a document
#   @comment FILE                 the comment at the head of a header in C; CAPITALS are headings
#   @types FILE, @functions FILE  types, and functions with their comments, of a header
#   @tool FILE                    a script's first comment: its first line is the name
#   @script FILE                  the same as text, without a name
#   @see PAGES                    other pages
BEGIN {
  top = ENVIRON["checkout"] # (a backslash in a name would mean something else by -v)
  for (i = 32; i < 127; i++) char[i] = sprintf("%c", i)
  plain["\\"] = code["\\"] = "\\e"
  code["-"] = "\\-"; code["'"] = "\\(aq"; code["`"] = "\\(ga"; code["^"] = "\\(ha"; code["~"] = "\\(ti"
  plain["^"] = "\\(ha"; plain["~"] = "\\(ti"
  upper = toupper(page)
  printf ".TH %s %s %s \"sandbox %s\" \"sandbox\"\n", upper, section, date, version
  failed = 0
}

function fail(what) {
  print "manual: " page "(" section "): " what >"/dev/stderr"
  failed = 1
  exit 1
}

function escaped(s, table,    i, c, out) {
  out = ""
  for (i = 1; i <= length(s); i++) {
    c = substr(s, i, 1)
    out = out (c in table ? table[c] : c)
  }
  return out
}

# Text with `code`, **strong** and [links](..).
function inline(s,    out, i, c, is_code, is_strong, end, rest) {
  out = ""
  gsub(/\\\|/, "|", s)
  for (i = 1; i <= length(s); i++) {
    c = substr(s, i, 1)
    rest = substr(s, i)
    if (c == "`") {
      is_code = !is_code
      out = out (is_code ? "\\fB" : "\\fP")
    } else if (is_code) {
      out = out (c in code ? code[c] : c)
    } else if (substr(rest, 1, 2) == "**") {
      is_strong = !is_strong
      out = out (is_strong ? "\\fB" : "\\fP")
      i++
    } else if (c == "[" && match(rest, /^\[[^]]*\]\([^)]*\)/)) {
      end = index(rest, "](")
      out = out inline(substr(rest, 2, end - 2))
      i += RLENGTH - 1
    } else
      out = out (c in plain ? plain[c] : c)
  }
  return out
}

# Lines of at most some 78 bytes; none begins as a request.
function wrapped(s,    words, n, i, line) {
  n = split(s, words, " ")
  line = ""
  for (i = 1; i <= n; i++) {
    if (line != "" && length(line) + length(words[i]) > 76) {
      put(line)
      line = ""
    }
    line = line (line == "" ? "" : " ") words[i]
  }
  if (line != "")
    put(line)
}

function put(line) {
  print (line ~ /^[.']/ ? "\\&" : "") line
}

# A tag is one line, which goes on behind a backslash where it is long.
function put_tag(s) {
  if (s ~ /^[.']/)
    s = "\\&" s
  while (length(s) > 78 && match(substr(s, 1, 76), /.* /)) {
    print substr(s, 1, RLENGTH) "\\"
    s = substr(s, RLENGTH + 1)
  }
  print s
}

function flush() {
  if (text == "")
    return
  # a heading or a tag begins a paragraph itself
  if (!fresh)
    print is_item ? "" : ".PP"
  fresh = 0
  wrapped(inline(text))
  text = ""
}

function end_list() {
  flush()
  if (in_list) {
    in_list = 0
    begin_anew = 1
  }
}

function heading(level, words) {
  end_list()
  end_code()
  end_table()
  gsub(/`/, "", words)
  if (level == 2) {
    words = toupper(words)
    print ".SH \"" escaped(words, plain) "\""
  } else
    print ".SS \"" escaped(words, plain) "\""
  fresh = 1
  begin_anew = 0
}

function end_code() {
  if (in_code) {
    print ".fi"
    print ".RE"
    in_code = 0
    blank = 0
    begin_anew = 1
  }
}

function end_table() {
  if (in_table) {
    in_table = 0
    begin_anew = 1
  }
}

function cells_of(line, cells,    n, i) {
  gsub(/\\\|/, "\001", line)
  sub(/^ *\| */, "", line)
  sub(/ *\| *$/, "", line)
  n = split(line, cells, / *\| */)
  for (i = 1; i <= n; i++)
    gsub(/\001/, "|", cells[i])
  return n
}

# A row: its first cell is the tag, the others are told behind it by their headings, of three cells the second without one.
function row(line,    cells, n, i, told) {
  n = cells_of(line, cells)
  told = ""
  for (i = 2; i <= n; i++)
    if (cells[i] != "") {
      if (told != "")
        told = told (told ~ /[.:;]$/ ? " " : ". ")
      told = told ((i > 2 || n > 3) && headings[i] != "" ? headings[i] ": " : "") cells[i]
    }
  print ".TP"
  if (cells[1] == "") {
    cells[1] = told
    told = ""
  }
  put_tag(inline(cells[1]))
  wrapped(inline(told == "" ? "(no more is said)" : told))
  fresh = 0
}

# One line of Markdown. Comments and marks of blocks aren't shown.
function line_of(s) {
  if (s ~ /^<!--/ || s ~ /^<\/?(picture|source|img)/ || s ~ /^ *<(source|img) /)
    return
  if (s ~ /^```/) {
    in_fence = !in_fence
    return
  }
  if (in_fence)
    s = "    " s
  if (s ~ /^    / && text == "" && !in_list || in_code && s ~ /^    /) {
    if (!in_code) {
      end_table()
      print fresh ? ".RS 4" : ".PP\n.RS 4"
      print ".nf"
      in_code = 1
      blank = 0
      fresh = 0
    }
    if (blank)
      print ""
    blank = 0
    put(escaped(substr(s, 5), code))
    return
  }
  if (in_code && s == "") {
    blank = 1
    return
  }
  end_code()
  if (s ~ /^\|/) {
    flush()
    if (in_list)
      end_list()
    if (!in_table) {
      count = cells_of(s, headings)
      in_table = 1
      return
    }
    if (s !~ /^\|[-| :]*\|$/)
      row(s)
    return
  }
  end_table()
  if (s ~ /^#/) {
    match(s, /^#+/)
    heading(RLENGTH, substr(s, RLENGTH + 2))
  } else if (s ~ /^- /) {
    flush()
    print ".IP \\(bu 2"
    fresh = 1
    in_list = 1
    begin_anew = 0
    text = substr(s, 3)
  } else if (s ~ /^[0-9]+\. /) {
    flush()
    match(s, /^[0-9]+\./)
    print ".IP " substr(s, 1, RLENGTH) " 4"
    fresh = 1
    in_list = 1
    begin_anew = 0
    text = substr(s, RLENGTH + 2)
  } else if (s == "") {
    flush()
  } else {
    if (text == "" && in_list && s !~ /^ /)
      in_list = 0
    if (text == "" && begin_anew)
      begin_anew = 0
    sub(/^ +/, "", s)
    text = text (text == "" ? "" : " ") s
  }
}

# The lines of a file, read once.
function read_file(file,    path, line, n) {
  if (file in lines_of)
    return lines_of[file]
  path = top "/" file
  n = 0
  while ((got = (getline line <path)) > 0)
    lines[file, ++n] = line
  close(path)
  if (got < 0 || n == 0)
    fail(file " can't be read")
  lines_of[file] = n
  return n
}

function level_of(s) {
  return match(s, /^#+ /) ? RLENGTH - 1 : 0
}

function place_of(file, words,    n, i) {
  n = read_file(file)
  for (i = 1; i <= n; i++)
    if (level_of(lines[file, i]) && substr(lines[file, i], level_of(lines[file, i]) + 2) == words)
      return i
  fail(file " has no heading " words)
}

function section_of(file, words,    n, i, level, deeper, is_alone) {
  is_alone = sub(/ #$/, "", words)
  i = place_of(file, words)
  n = read_file(file)
  level = level_of(lines[file, i])
  for (i++; i <= n; i++) {
    deeper = level_of(lines[file, i])
    if (deeper && (deeper <= level || is_alone))
      return
    line_of(lines[file, i])
  }
}

# Where a subsection is added to the document, it comes into the page by itself.
function subsections_of(file, words,    n, i, level, deeper) {
  i = place_of(file, words)
  n = read_file(file)
  level = level_of(lines[file, i])
  for (i++; i <= n && !level_of(lines[file, i]); i++) ;
  for (; i <= n; i++) {
    deeper = level_of(lines[file, i])
    if (deeper && deeper <= level)
      return
    line_of(deeper ? "## " substr(lines[file, i], deeper + 2) : lines[file, i])
  }
}

function paragraph_of(file, words,    n, i) {
  n = read_file(file)
  for (i = 1; i <= n; i++)
    if (index(lines[file, i], words) == 1) {
      flush()
      for (; i <= n && lines[file, i] != ""; i++)
        line_of(lines[file, i])
      line_of("")
      return
    }
  fail(file " has no paragraph that begins with " words)
}

function row_of(file, words, key,    n, i, cells, m) {
  n = read_file(file)
  for (i = place_of(file, words) + 1; i <= n && !level_of(lines[file, i]); i++)
    if (lines[file, i] ~ /^\|/ && cells_of(lines[file, i], cells) && index(cells[1] " ", "`" key)) {
      m = cells_of(lines[file, i], cells)
      sub(/ \("[^"]*"\)$/, "", cells[2]) # a section of the document, which the page has itself
      line_of("It " cells[2] "." (m > 2 && cells[3] != "nothing" ? " It prints " cells[3] "." : ""))
      line_of("")
      return
    }
}

function all_of(file,    n, i) {
  n = read_file(file)
  heading(2, "DESCRIPTION")
  for (i = 2; i <= n; i++)
    line_of(lines[file, i])
}

function head_of(file,    n, i) {
  n = read_file(file)
  for (i = 2; i <= n && lines[file, i] ~ /^(!.*|<.*)?$/; i++) ; # pictures
  for (; i <= n && lines[file, i] != ""; i++)
    line_of(lines[file, i])
  line_of("")
}

# A line of help: headings are sections, two blanks before a word make it a tag.
function help_line(s,    tag) {
  if (s ~ /^Usage: /) {
    heading(2, "SYNOPSIS")
    fresh = 0
    print ".B " escaped(substr(s, 8), code)
    heading(2, "DESCRIPTION")
  } else if (s ~ /^[A-Z][a-z]*:$/)
    held = substr(s, 1, length(s) - 1)
  else if (s ~ /^  / && match(s, /[^ ]  +[^ ]/)) {
    tag = substr(s, 1, RSTART)
    sub(/^ +/, "", tag)
    helps[++helped] = held "\001" tag "\001" substr(s, RSTART + RLENGTH - 1)
  }
}

# Arguments and options stand behind the description.
function put_helps(    i, part, last) {
  last = ""
  for (i = 1; i <= helped; i++) {
    split(helps[i], part, "\001")
    if (part[1] != last)
      heading(2, part[1])
    last = part[1]
    print ".TP"
    put_tag("\\fB" escaped(part[2], code) "\\fP")
    wrapped(escaped(part[3], plain))
    fresh = 0
  }
  helped = 0
}

# The comment at the head of a header.
function comment_of(file,    n, i, s) {
  n = read_file(file)
  heading(2, "DESCRIPTION")
  for (i = 2; i <= n && lines[file, i] !~ /\*\//; i++) {
    s = lines[file, i]
    sub(/^ \* ?/, "", s)
    if (s ~ /^[A-Z][A-Z ]*$/ && s !~ /^ /)
      heading(2, s)
    else if (s ~ /^      +[^ ]/) { # a table
      if (text != "")
        flush()
      line_of(s)
    } else {
      sub(/^ +/, "", s)
      line_of(s)
    }
  }
  line_of("")
}

# Constants and types as they stand, up to the first function.
function types_of(file,    n, i, is_on) {
  n = read_file(file)
  heading(2, "TYPES")
  for (i = 1; i <= n; i++) {
    if (lines[file, i] ~ /^#define SANDBOX_VERSION_NUMBER/)
      is_on = 1
    if (is_on && lines[file, i] ~ /sandbox_version\(void\)/)
      break
    if (is_on && lines[file, i + 1] !~ /sandbox_version\(void\)/)
      line_of(lines[file, i] == "" ? "" : "    " lines[file, i])
  }
  line_of("x")
  text = ""
}

# Each function with the comment above it.
function functions_of(file,    n, i, s, told, proto, is_comment) {
  n = read_file(file)
  heading(2, "FUNCTIONS")
  end_code()
  for (i = 1; i <= n && lines[file, i] !~ /^static inline/; i++) {
    s = lines[file, i]
    if (s ~ /^\/\* /) {
      told = ""
      is_comment = 1
    }
    if (is_comment) {
      is_comment = s !~ /\*\//
      sub(/^ ?\/?\*+ ?/, "", s)
      sub(/ *\*\/.*$/, "", s)
      told = told " " s
    } else if (s ~ /^[a-z].* \**sandbox_[a-z_]*\(/ || proto != "") {
      sub(/^ +/, "", s)
      proto = proto (proto == "" ? "" : " ") s
      if (s ~ /;/) {
        print ".TP"
        put_tag("\\fB" escaped(proto, code) "\\fP")
        wrapped(inline(told))
        proto = ""
        fresh = 0
      }
    }
  }
  begin_anew = 1
}

# A script's first comment, or the text at the head of one in Python: two blanks before a word make it a tag, four make it literal.
function tool_of(file, is_page,    n, i, s, is_python, is_first) {
  n = read_file(file)
  i = lines[file, 1] ~ /^#!/ ? 2 : 1
  is_python = lines[file, i] ~ /^"""/
  is_first = is_page
  for (; i <= n; i++) {
    s = lines[file, i]
    if (is_python ? s ~ /^"""$/ : s !~ /^#/)
      break
    sub(is_python ? "^\"\"\"" : "^# ?", "", s)
    if (is_first) {
      sub(/^sandbox[^:]*: /, "", s)
      name_of(s)
      heading(2, "DESCRIPTION")
      is_first = 0
    } else if (is_python && s ~ /^[A-Z].*:$/) {
      heading(3, substr(s, 1, length(s) - 1))
    } else if (is_python && s ~ /^  [^ ]/ && match(s, /[^ ]  +[^ ]/)) {
      flush()
      print ".TP"
      put_tag("\\fB" escaped(substr(s, 3, RSTART - 2), code) "\\fP")
      wrapped(escaped(substr(s, RSTART + RLENGTH - 1), plain))
      fresh = 0
    } else {
      if (is_python)
        sub(/^Usage: |^       /, "    ", s)
      sub(/^  ([^ ])/, "    &", s)
      sub(/^      /, "    ", s)
      line_of(s)
    }
  }
  line_of("")
}

function name_of(s) {
  sub(/[.:]$/, "", s)
  if (s ~ /^[A-Z][a-z]* /) # a word that has further capitals keeps them
    s = tolower(substr(s, 1, 1)) substr(s, 2)
  print ".SH NAME"
  wrapped(escaped(page, plain) " \\- " escaped(s, plain))
}

/^@name / { name_of(substr($0, 7)); next }
/^@help/ { help_line(substr($0, 7)); next }
/^@section / { words = $0; sub(/^@section [^ ]+ /, "", words); section_of($2, words); next }
/^@subsections / { words = $0; sub(/^@subsections [^ ]+ /, "", words); subsections_of($2, words); next }
/^@paragraph / { words = $0; sub(/^@paragraph [^ ]+ /, "", words); paragraph_of($2, words); next }
/^@row / { words = $0; sub(/^@row [^ ]+ [^ ]+ /, "", words); row_of($2, $3, words); line_of(""); flush(); next }
/^@head / { head_of($2); next }
/^@all / { all_of($2); next }
/^@comment / { comment_of($2); next }
/^@types / { types_of($2); next }
/^@functions / { functions_of($2); next }
/^@tool / { tool_of($2, 1); next }
/^@script / { tool_of($2, 0); next }
/^@see / {
  put_helps()
  heading(2, "SEE ALSO")
  see = ""
  for (i = 2; i <= NF; i++) {
    name = $i
    sub(/\(.*/, "", name)
    if (name != page)
      see = see (see == "" ? "" : ", ") "\\fB" escaped(name, code) "\\fP" substr($i, length(name) + 1)
  }
  wrapped(see)
  next
}
/^## EXIT STATUS/ { put_helps() }
{ line_of($0) }

END {
  if (!failed) {
    end_list()
    end_code()
    put_helps()
  }
}
