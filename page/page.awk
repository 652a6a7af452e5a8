# Makes the page of captures, or says what differs between two, from what the proved programs say of them and from their bytes. What a byte means is theirs to say: here it is laid
# out, with the place of each descriptor, which is the sum of the lengths before it.
#
# Lines of the input, with tabs between: 'capture' or 'against', a number, and the name as it can be printed. Of capture N the folder GCF_TOLD has N.bytes, as od prints them, and what
# show, check and mend say of it: N.show, N.check, N.archive and N.mend, with N.mended, the bytes that mend wrote, and N.note, what was said on standard error.
# GCF_MODE is page or diff.
#
# Descriptors are numbered through all captures: those of capture c are low[c] to high[c].

BEGIN {
    FS = "\t"
    OFS = ""
    folder = ENVIRON["GCF_TOLD"]
    hues = 8
    for (i = 0; i < 16; i++) value[substr("0123456789ABCDEF", i + 1, 1)] = i
}

$1 == "against" { against = $2 }
$1 == "capture" { captures[++count] = $2 }
{ name[$2] = $3 }

END {
    if (ENVIRON["GCF_MODE"] == "diff") exit tell_difference(captures[1], captures[2])
    make_page()
}

# ---- small things

# Text as it can stand in a page, in an attribute too.
function esc(s) {
    if (s !~ /[&<>"\047]/) return s
    gsub(/&/, "\\&amp;", s)
    gsub(/</, "\\&lt;", s)
    gsub(/>/, "\\&gt;", s)
    gsub(/"/, "\\&quot;", s)
    gsub(/\047/, "\\&#39;", s)
    return s
}

# The name of a capture, which may be written in any direction.
function named(c) { return "<bdi>" esc(name[c]) "</bdi>" }

# A number with commas: 65,534.
function commas(n, s) {
    s = n ""
    if (length(s) > 3) return commas(substr(s, 1, length(s) - 3)) "," substr(s, length(s) - 2)
    return s
}

function many(n, one, more) { return commas(n) " " (n == 1 ? one : more) }

function least(a, b) { return a < b ? a : b }

function or_none(text) { return text == "" ? "none" : text }

# One line of what may be several.
function joined(lines) {
    sub(/\n$/, "", lines)
    gsub(/\n/, "; ", lines)
    return lines
}

# Bytes of a capture from a place on, with blanks between; and one of them.
function bytes(c, from, n) { return substr(all[c], 3 * from + 1, 3 * n - 1) }
function byte(c, from) { return substr(all[c], 3 * from + 1, 2) }

function places(from, n) { return n == 1 ? "byte " from : "bytes " from " to " from + n - 1 }

# The bits in which two bytes differ, in words: bit 6, or bits 7, 0.
function bits_of(was, is, a, b, k, n, s) {
    a = value[substr(was, 1, 1)] * 16 + value[substr(was, 2, 1)]
    b = value[substr(is, 1, 1)] * 16 + value[substr(is, 2, 1)]
    n = 0
    s = ""
    for (k = 0; k < 8; k++) {
        if (a % 2 != b % 2) s = k (n++ ? ", " : "") s
        a = int(a / 2)
        b = int(b / 2)
    }
    return (n == 1 ? "bit " : "bits ") s
}

# ---- what the programs say

# The bytes that od prints, in pieces that are joined by twos: a string that grows by a line at a time would be copied as often.
function read_bytes(file, line, n, i, piece) {
    n = 0
    while ((getline line < file) > 0) piece[++n] = toupper(substr(line, 2)) " "
    close(file)
    if (!n) return ""
    while (n > 1) {
        for (i = 1; 2 * i <= n; i++) piece[i] = piece[2 * i - 1] piece[2 * i]
        if (n % 2) piece[i] = piece[n]
        n = int((n + 1) / 2)
    }
    return piece[1]
}

# The head of a descriptor in the words of show: 0003h Removable Medium: Version 0, Persistent 1, Current 1, Additional Length 4
function load_head(c, line, k, d, word) {
    d = high[c] = ++descriptors
    split(substr(line, k + 10), word, " ")
    feature[d] = substr(line, 1, 4)
    row[c, feature[d]] = d
    title[d] = substr(line, 7, k - 7)
    version[d] = word[1] + 0
    persistent[d] = word[3] + 0
    current[d] = word[5] + 0
    extent[d] = word[8]
    inside[d] = ""
    at[d] = end[c]
    end[c] += 4 + word[8]
}

# What stands in a descriptor, a line for each profile, field or list. The body is among the bytes.
function load_inside(c, line, d) {
    d = high[c]
    line = substr(line, 5)
    if (line !~ /^body[ ,]/) inside[d] = inside[d] line "\n"
    if (feature[d] == "0000" && line ~ /^[0-9A-F][0-9A-F][0-9A-F][0-9A-F]h /) load_profile(c, line)
}

# A listed profile: 0012h DVD-RAM, current
function load_profile(c, line, i) {
    i = ++profiles[c]
    listed_current[c, i] = sub(/, current$/, "", line)
    listed[c, i] = line
}

# Data Length 40, bytes received 44, whole descriptors 5, complete
# Data Length 40, bytes received 44, refused
function load_counts(c, line, part, n) {
    n = split(line, part, ", ")
    data_length[c] = substr(part[1], 13)
    taken[c] = substr(part[2], 16) + 0
    if (part[n] != "refused") state[c] = part[n]
}

# The field that a refusal speaks of, by its number: Data Length, or one of the descriptor that it names: refused 18 at byte 20, feature 0003h: ..
function load_refused(c, line, k) {
    refused[c] = line
    if (line ~ /^refused 1[56]:/ && size[c] >= 8) mark_bytes(c, 0, 0, 4)
    if (!match(line, /^refused [0-9]+ at byte [0-9]+, feature/)) return
    split(line, refused_word, /[ ,]/)
    k = refused_word[5]
    if (refused_word[2] == 18) mark_bytes(c, 0, k, 2)
    else if (refused_word[2] == 19) mark_bytes(c, 0, k + 2, 1)
    else mark_bytes(c, 0, k + 3, 1)
}

function load_show(c, file, line, k) {
    low[c] = descriptors + 1
    high[c] = descriptors + 0
    profiles[c] = 0
    end[c] = least(8, size[c])
    taken[c] = size[c]
    while ((getline line < file) > 0) {
        if (line ~ /^ /) load_inside(c, line)
        else if (k = index(line, ": Version ")) load_head(c, line, k)
        else if (line ~ /^refused /) load_refused(c, line)
        else if (line ~ /^Current Profile /) profile[c] = substr(line, 17)
        else if (line ~ /^Data Length /) load_counts(c, line)
    }
    close(file)
}

# The descriptor of a feature, 0 where there is none.
function row_of(c, f) { return (c, f) in row ? row[c, f] : 0 }

# A fault: 36 in feature 0003 at byte 28: byte 4 bit 4: a reserved body bit or a pad byte is not 0
function load_fault(c, line, d) {
    if (!faults[c]++) first[c] = line
    d = 0
    if (match(line, / in feature [0-9A-F][0-9A-F][0-9A-F][0-9A-F]( at byte [0-9]+)?/)) d = row_of(c, substr(line, RSTART + 12, 4))
    if (!d) {
        lacking[c] = lacking[c] line "\n"
        return
    }
    line = substr(line, 1, RSTART - 1) substr(line, RSTART + RLENGTH)
    found[d] = found[d] line "\n"
    mark_found(c, d, line)
}

# A line of check: of a profile, which may be listed twice, or of the descriptors.
function load_verdict(c, line, p) {
    if (line ~ /^profile /) {
        p = substr(line, 9, 4)
        sub(/^[^:]*: /, "", line)
        if (!index("\n" verdict[c, p], "\n" line "\n")) verdict[c, p] = verdict[c, p] line "\n"
    } else if (line ~ /^descriptors: / && line !~ /: no fault$/) load_fault(c, substr(line, 14))
}

# The lines of check that begin so.
function load_check(c, file, begin, line) {
    while ((getline line < file) > 0) if (substr(line, 1, length(begin)) == begin) load_verdict(c, line)
    close(file)
}

# Bytes that are at fault as a whole: an Additional Length (31), profiles with the number 0 (39).
function mark_found(c, d, line, k) {
    if (line ~ /^31[ :,]/) mark_bytes(c, d, at[d] + 3, 1)
    if (line ~ /^39[ :,]/) for (k = 1; k <= profiles[c]; k++) if (listed[c, k] ~ /^0000h/) mark_bytes(c, d, at[d] + 4 * k, 2)
}

function mark_bytes(c, d, from, n, k) {
    has_marks[d] = 1
    for (k = from; k < from + n; k++) marked[start[c] + k] = "at fault"
}

# The changes of mend, such as 'feature 0003, flags: 01h becomes 03h': one for each byte in which its copy differs, in rising order. Those are the bits at fault.
function load_mend(c, file, line, f, d, k, copy) {
    f = ""
    while ((getline line < file) > 0) {
        if (line !~ /^feature /) continue
        if (!changes[c]++) copy = read_bytes(folder "/" c ".mended")
        if (substr(line, 9, 4) "" != f "") {
            f = substr(line, 9, 4)
            d = row_of(c, f)
            k = at[d]
        }
        while (substr(copy, 3 * k + 1, 2) "" == byte(c, k) "") k++
        marked[start[c] + k] = bits_of(byte(c, k), substr(copy, 3 * k + 1, 2))
        has_marks[d] = 1
        mending[d] = mending[d] substr(line, 15) ", " marked[start[c] + k] "\n"
        k++
    }
    close(file)
}

function load_notes(c, file, line) {
    while ((getline line < file) > 0) notes[c] = notes[c] line "\n"
    close(file)
}

# Room for what is known of so many bytes, of the descriptors that they can hold and of their runs, but no more than the longest response has. Elements that split makes stand
# side by side; where an array grows by itself each stands in a list, which is walked whenever it is looked for.
function make_room(n, s) {
    for (s = " "; length(s) < least(n, 65536); s = s s) {}
    split(s, marked, / /)
    s = substr(s, 1, length(s) / 4)
    split(s, feature, / /)
    split(s, title, / /)
    split(s, version, / /)
    split(s, persistent, / /)
    split(s, current, / /)
    split(s, extent, / /)
    split(s, inside, / /)
    split(s, at, / /)
    split(s, found, / /)
    split(s, mending, / /)
    split(s, run_from, / /)
    split(s, run_to, / /)
    split(s, run_kind, / /)
    split(s, run_d, / /)
    split(s, run_label, / /)
}

# The bytes of a capture, and how many are loaded then; what is marked of them starts apart from that of others, also where a field at fault was not received whole.
function load_bytes(c) {
    all[c] = read_bytes(folder "/" c ".bytes")
    size[c] = int((length(all[c]) + 1) / 3)
    start[c] = loaded + 1
    return loaded += size[c] + 8
}

# All that was said of a capture.
function load(c, place) {
    place = folder "/" c
    load_show(c, place ".show")
    load_check(c, place ".check", "")
    load_check(c, place ".archive", "profile 0000")
    load_mend(c, place ".mend")
    load_notes(c, place ".note")
    if (refused[c] != "" || state[c] != "") return
    refused[c] = "not read: " joined(notes[c])
    notes[c] = ""
}

# ---- what differs: a list of items, each with its lines

function item(kind, what, lines) {
    items++
    item_kind[items] = kind
    item_what[items] = what
    item_lines[items] = lines
    counted[kind]++
}

# A line of an item of which it is not known yet that there is one.
function differs(what, line) {
    if (!items || item_what[items] != what) item("changed", what, "")
    item_lines[items] = item_lines[items] line "\n"
}

function becomes(what, label, before, after) { if (before "" != after "") differs(what, label ": " before " becomes " after) }

# Bytes of two captures that differ, as runs; the first is told as byte k.
function compare_bytes(what, a, at_a, b, at_b, n, k, i, from) {
    if (bytes(a, at_a, n) "" == bytes(b, at_b, n) "") return
    for (i = 0; i < n; i++) {
        if (byte(a, at_a + i) "" == byte(b, at_b + i) "") continue
        from = i
        while (i + 1 < n && byte(a, at_a + i + 1) "" != byte(b, at_b + i + 1) "") i++
        if (i == from) differs(what, "byte " k + from ": " byte(a, at_a + from) "h becomes " byte(b, at_b + from) "h, " bits_of(byte(a, at_a + from), byte(b, at_b + from)))
        else differs(what, places(k + from, i - from + 1) ": " bytes(a, at_a + from, i - from + 1) " become " bytes(b, at_b + from, i - from + 1))
    }
}

# The same of two pieces of which one may be longer.
function compare_pieces(what, a, at_a, m, b, at_b, n, k) {
    compare_bytes(what, a, at_a, b, at_b, least(m, n), k)
    if (m < n) differs(what, places(k + m, n - m) " added: " bytes(b, at_b + m, n - m))
    if (n < m) differs(what, places(k + n, m - n) " removed: " bytes(a, at_a + n, m - n))
}

# What two readings say of the whole.
function compare_header(a, b) {
    becomes("header", "reading", refused[a] == "" ? "accepted" : refused[a], refused[b] == "" ? "accepted" : refused[b])
    becomes("header", "Current Profile", or_none(profile[a]), or_none(profile[b]))
    becomes("header", "Data Length", or_none(data_length[a]), or_none(data_length[b]))
    becomes("header", "bytes", taken[a], taken[b])
    becomes("header", "the response is", or_none(state[a]), or_none(state[b]))
    compare_pieces("header", a, 0, least(8, taken[a]), b, 0, least(8, taken[b]), 0)
}

# The name and the value of a line that stands in a descriptor; of a profile whether it is current.
function name_in(line) {
    if (index(line, ": ")) return substr(line, 1, index(line, ": ") - 1)
    sub(/, current$/, "", line)
    return "profile " line
}

function value_in(line) {
    if (index(line, ": ")) return substr(line, index(line, ": ") + 2)
    return line ~ /, current$/ ? "current" : "not current"
}

# The lines of a descriptor by their names; the same name again has its count behind it.
function values_of(lines, into, order, part, n, i, label, seen) {
    n = split(lines, part, "\n") - 1
    for (i = 1; i <= n; i++) {
        label = name_in(part[i])
        if (seen[label]++) label = label " (" seen[label] ")"
        into[label] = value_in(part[i])
        order[i] = label
    }
    return n
}

function compare_inside(what, was, is, before, after, first_order, second_order, m, n, i, label) {
    if (was "" == is "") return
    m = values_of(was, before, first_order)
    n = values_of(is, after, second_order)
    for (i = 1; i <= m; i++) {
        label = first_order[i]
        if (!(label in after)) differs(what, label ": removed, was " before[label])
        else becomes(what, label, before[label], after[label])
    }
    for (i = 1; i <= n; i++) if (!(second_order[i] in before)) differs(what, second_order[i] ": added, " after[second_order[i]])
}

function named_feature(d) { return feature[d] "h " title[d] }
function head_of(d) { return "Version " version[d] ", Persistent " persistent[d] ", Current " current[d] ", Additional Length " extent[d] }

# What stands in a descriptor; a body that is not decoded stands for itself.
function inside_or_body(c, d) { return inside[d] != "" || extent[d] == 0 ? inside[d] : "body " bytes(c, at[d] + 4, extent[d]) "\n" }

# Descriptor d of a, and e of b, of one feature.
function compare_feature(a, d, b, e, what) {
    what = named_feature(d)
    becomes(what, "Version", version[d], version[e])
    becomes(what, "Persistent", persistent[d], persistent[e])
    becomes(what, "Current", current[d], current[e])
    becomes(what, "Additional Length", extent[d], extent[e])
    compare_inside(what, inside[d], inside[e])
    compare_pieces(what, a, at[d], 4 + extent[d], b, at[e], 4 + extent[e], 0)
    becomes(what, "check", or_none(joined(found[d])), or_none(joined(found[e])))
    if (items && item_what[items] == what) mark[e] = "changed"
}

# The features ascend in both.
function compare_features(a, b, d, e) {
    d = low[a]
    e = low[b]
    while (d <= high[a] || e <= high[b]) {
        if (e > high[b] || d <= high[a] && feature[d] "" < feature[e] "") {
            item("removed", named_feature(d), head_of(d) "\n" inside_or_body(a, d))
            d++
        } else if (d > high[a] || feature[e] "" < feature[d] "") {
            item("added", named_feature(e), head_of(e) "\n" inside_or_body(b, e))
            mark[e++] = "added"
        } else compare_feature(a, d++, b, e++)
    }
}

# What is found of no descriptor, the verdicts on profiles that both list, and on the archive subset.
function compare_verdicts(a, b, i, p) {
    becomes("check", "of the whole", or_none(joined(lacking[a])), or_none(joined(lacking[b])))
    for (i = 1; i <= profiles[b]; i++) {
        p = substr(listed[b, i], 1, 4)
        if (verdict[a, p] != "" && verdict[b, p] != "") becomes("check", "profile " listed[b, i], joined(verdict[a, p]), joined(verdict[b, p]))
    }
    becomes("check", "archive subset", or_none(joined(verdict[a, "0000"])), or_none(joined(verdict[b, "0000"])))
}

# What was added, removed and changed from a to b, and how many items that are. Where a byte differs, there is one.
function compare(a, b) {
    items = 0
    split("", counted)
    compare_header(a, b)
    compare_features(a, b)
    if (end[a] == end[b]) compare_pieces("behind the whole descriptors", a, end[a], taken[a] - end[a], b, end[b], taken[b] - end[b], end[a])
    else compare_pieces("behind the whole descriptors, counted from there", a, end[a], taken[a] - end[a], b, end[b], taken[b] - end[b], 0)
    compare_verdicts(a, b)
    return items
}

function counts_told(kinds, i, s) {
    split("added removed changed", kinds, " ")
    s = ""
    for (i = 1; i <= 3; i++) if (counted[kinds[i]]) s = s (s == "" ? "" : ", ") counted[kinds[i]] " " kinds[i]
    return s
}

# As text, and 1 where there is a difference.
function tell_difference(a, b, i, lines) {
    load_bytes(a)
    make_room(load_bytes(b))
    load(a)
    load(b)
    if (!compare(a, b)) {
        print "no difference"
        return 0
    }
    for (i = 1; i <= items; i++) {
        lines = item_lines[i]
        sub(/\n$/, "", lines)
        gsub(/\n/, "\n    ", lines)
        print item_what[i], ": ", item_kind[i], "\n    ", lines
    }
    print counts_told()
    return 1
}

# ---- the page

function make_page(i, n) {
    for (i = 1; i <= count; i++) n = load_bytes(captures[i])
    if (against != "") n = load_bytes(against)
    make_room(n)
    for (i = 1; i <= count; i++) load(captures[i])
    if (against != "") load(against)
    page_head()
    if (count > 1) page_summary()
    print "<main>"
    for (i = 1; i <= count; i++) page_capture(i, captures[i])
    print "</main>"
    print_between("script", ENVIRON["GCF_SCRIPT"])
    print "</body>"
    print "</html>"
}

# A file as it is, between the marks of an element.
function print_between(element, file, line) {
    printf "<%s>", element
    while ((getline line < file) > 0) print line
    close(file)
    print "</", element, ">"
}

function page_title() { return count == 1 ? name[captures[1]] : many(count, "capture", "captures") }

function page_head() {
    print "<!DOCTYPE html>"
    print "<html lang=\"en\">"
    print "<head>"
    print "<meta charset=\"utf-8\">"
    print "<meta name=\"viewport\" content=\"width=device-width, initial-scale=1\">"
    # nothing is fetched, and nothing runs or gives a style but what stands here
    print "<meta http-equiv=\"Content-Security-Policy\" content=\"default-src 'none'; style-src '", ENVIRON["GCF_STYLE_SUM"], "'; script-src '", ENVIRON["GCF_SCRIPT_SUM"], "'\">"
    print "<meta name=\"color-scheme\" content=\"light dark\">"
    print "<title>", esc(page_title()), ": GET CONFIGURATION</title>"
    print_between("style", ENVIRON["GCF_STYLE"])
    print "</head>"
    print "<body>"
    print "<header>"
    print "<h1>", (count == 1 ? named(captures[1]) : esc(page_title())), "</h1>"
    print "<p>Response", (count == 1 ? "" : "s"), " to GET CONFIGURATION, read and checked by ", esc(ENVIRON["GCF_VERSION_TOLD"]), (against == "" ? "" : ", held against " named(against)), "</p>"
    print "</header>"
}

function heading(text) { print "<h", level, ">", text, "</h", level, ">" }

# The head of a table, its columns with bars between.
function table_head(kind, columns, part, n, i) {
    print "<table class=\"", kind, "\">"
    n = split(columns, part, "|")
    printf "<thead><tr>"
    for (i = 1; i <= n; i++) printf "%s", "<th scope=\"col\">" part[i]
    print "</thead>"
    print "<tbody>"
}

function table_end() { print "</tbody>\n</table>" }

# What may be wider than the page, which is reached by the keyboard then.
function wide(what, c) { print "<div class=\"wide\" role=\"region\" tabindex=\"0\" aria-label=\"", what, " of ", esc(name[c]), "\">" }

# Lines as a list.
function list_of(lines, kind, part, n, i, s) {
    n = split(lines, part, "\n") - 1
    if (n < 1) return ""
    s = "<ul" (kind == "" ? "" : " class=\"" kind "\"") ">"
    for (i = 1; i <= n; i++) s = s "<li>" esc(part[i])
    return s "</ul>"
}

# What is wrong with a capture first, nothing if no fault was found. A cut one is accepted, and cannot be checked.
function fault_of(c) {
    if (refused[c] != "") return refused[c]
    if (state[c] == "cut") return "cut"
    return first[c]
}

# Only a complete response is checked.
function is_whole(c) { return refused[c] == "" && state[c] == "complete" }

function count_of(c) { return high[c] - low[c] + 1 }

# A line for each capture: its name, what is current, how much there is, and what is wrong first.
function page_summary(i, c) {
    print "<nav aria-label=\"Captures\">"
    table_head("summary", "Capture|Current Profile|Features|First fault" (against == "" ? "" : "|Against " named(against)))
    for (i = 1; i <= count; i++) {
        c = captures[i]
        print "<tr><th scope=\"row\"><a href=\"#c", i, "\">", named(c), "</a><td>", esc(profile[c]), "<td>", (refused[c] == "" || count_of(c) ? count_of(c) : ""), \
            (fault_of(c) == "" ? "<td class=\"good\">no fault" : "<td class=\"bad\">" esc(fault_of(c))), (against == "" ? "" : "<td>" (compare(against, c) ? counts_told() : "no difference"))
    }
    table_end()
    print "</nav>"
}

function page_capture(i, c) {
    level = 2
    print "<section class=\"capture\" id=\"c", i, "\">"
    if (count > 1) {
        heading(named(c))
        level = 3
    }
    page_facts(c)
    page_notes(c)
    if (against != "") page_difference(c)
    page_profiles(c)
    page_features(i, c)
    page_map(i, c)
    print "</section>"
}

function fact(label, text, kind) { print "<div", (kind == "" ? "" : " class=\"" kind "\""), "><dt>", label, "<dd>", text, "</div>" }

# What is known of the whole.
function page_facts(c) {
    print "<dl class=\"facts\">"
    if (refused[c] != "") fact("Reading", refused[c] ~ /^not read/ ? "not read" : "refused", "bad")
    else fact("Reading", "accepted, " state[c], is_whole(c) ? "good" : "bad")
    if (profile[c] != "") fact("Current Profile", esc(profile[c]))
    if (data_length[c] != "") fact("Data Length", commas(data_length[c]))
    fact("Bytes", commas(taken[c]) (size[c] > taken[c] ? ", and " commas(size[c] - taken[c]) " behind them" : ""))
    if (refused[c] == "" || count_of(c)) fact("Whole descriptors", commas(count_of(c)))
    if (is_whole(c)) fact("Check", faults[c] ? many(faults[c], "fault", "faults") : "no fault", faults[c] ? "bad" : "good")
    if (changes[c]) fact("Mending", "changes " many(changes[c], "byte", "bytes"))
    print "</dl>"
}

function page_notes(c, part, n, i) {
    if (refused[c] != "") print "<p class=\"note bad\">", esc(refused[c]), "</p>"
    n = split(notes[c], part, "\n") - 1
    for (i = 1; i <= n; i++) print "<p class=\"note\">", esc(part[i]), "</p>"
    n = split(lacking[c], part, "\n") - 1
    for (i = 1; i <= n; i++) print "<p class=\"note bad\">", esc(part[i]), "</p>"
}

# What differs from the other capture.
function page_difference(c, i) {
    heading("Against " named(against))
    if (!compare(against, c)) {
        print "<p>no difference</p>"
        return
    }
    print "<p>", counts_told(), "</p>"
    table_head("changes", "What|How|In words")
    for (i = 1; i <= items; i++) print "<tr><th scope=\"row\">", esc(item_what[i]), "<td class=\"", item_kind[i], "\">", item_kind[i], "<td>", list_of(item_lines[i])
    table_end()
}

function verdict_cell(c, lines) {
    if (lines == "") return is_whole(c) ? "<td>no table" : "<td>not judged"
    if (lines == "conforms\n") return "<td class=\"good\">conforms"
    return "<td class=\"bad\">" list_of(lines)
}

# The listed profiles, and the archive subset, which no drive lists.
function page_profiles(c, i, p) {
    if (!profiles[c] && verdict[c, "0000"] == "") return
    heading("Profiles")
    table_head("profiles", "Profile|Name|Current|Verdict")
    for (i = 1; i <= profiles[c]; i++) {
        p = substr(listed[c, i], 1, 4)
        print (listed_current[c, i] ? "<tr class=\"current\">" : "<tr>") "<th scope=\"row\">", p, "h<td>", esc(substr(listed[c, i], 7)), (listed_current[c, i] ? "<td>current" : "<td>"), \
            (p == "0000" ? "<td>" : verdict_cell(c, verdict[c, p]))
    }
    if (verdict[c, "0000"] != "") print "<tr><th scope=\"row\">subset<td>archive<td>", verdict_cell(c, verdict[c, "0000"])
    table_end()
}

# The same in a row, where no more than 16 bytes are shown.
function contents(c, d) {
    if (inside[d] != "") return list_of(inside[d])
    if (extent[d] == 0) return ""
    return "<code>" bytes(c, at[d] + 4, least(extent[d], 16)) (extent[d] > 16 ? " .." : "") "</code>"
}

# What the checks found at a descriptor, what mending would change, and whether it differs from the other capture's.
function findings(d, s) {
    s = d in mark ? "<p class=\"" mark[d] "\">" mark[d] "</p>" : ""
    if (found[d] != "") s = s list_of(found[d], "bad")
    if (mending[d] != "") s = s list_of("mending\n" mending[d], "mending")
    return s
}

function page_features(i, c, k, d) {
    if (!count_of(c)) return
    heading("Features")
    wide("Features", c)
    table_head("features", "#|Feature|Name|Persistent|Current|Version|Length|At byte|Fields|Findings")
    for (d = low[c]; d <= high[c]; d++) {
        k++
        print "<tr id=\"f", i, "-", k, "\"><td><a class=\"k", k % hues, "\" href=\"#m", i, "-", k, "\">", k, "</a><th scope=\"row\">", feature[d], "h<td>", esc(title[d]), \
            (persistent[d] ? "<td>yes" : "<td>no"), (current[d] ? "<td>yes<td>" : "<td>no<td>"), version[d], "<td>", extent[d], "<td>", at[d], "<td>", contents(c, d), "<td>", findings(d)
    }
    table_end()
    print "</div>"
}

# ---- the map of the bytes: lines of 16, in which each descriptor is a run

# A run: where it begins and ends, its class, its descriptor or 0, and its label.
function add_run(from, n, kind, d, label) {
    runs++
    run_from[runs] = from
    run_to[runs] = from + n
    run_kind[runs] = kind
    run_d[runs] = d
    run_label[runs] = label
}

# The runs of a capture: the header's fields, the descriptors, what is behind them.
function make_runs(c, d, n) {
    runs = 0
    if (size[c] < 8) add_run(0, size[c], "rest", 0, "under 8 bytes: no header")
    else {
        add_run(0, 4, "head", 0, "header: bytes 0 to 3 Data Length" (data_length[c] == "" ? "" : " " commas(data_length[c])))
        add_run(4, 2, "head", 0, "4 and 5 reserved")
        add_run(6, 2, "head", 0, "6 and 7 Current Profile" (profile[c] == "" ? "" : " " substr(profile[c], 1, 5)))
    }
    for (d = low[c]; d <= high[c]; d++) add_run(at[d], 4 + extent[d], "k" (d - low[c] + 1) % hues, d, "")
    n = taken[c] - end[c]
    if (n > 0) add_run(end[c], n, "rest", 0, places(end[c], n) (refused[c] == "" ? ": cut" : ": not read"))
    n = size[c] - taken[c]
    if (n > 0) add_run(taken[c], n, "rest", 0, places(taken[c], n) ": padding")
}

# Bytes from a place to another, those at fault marked.
function marked_bytes(c, from, to, first, s) {
    s = ""
    first = start[c]
    for (; from < to; from++) s = s (s == "" ? "" : " ") (marked[first + from] != "" ? "<mark>" byte(c, from) "</mark>" : byte(c, from))
    return s
}

function plain_bytes(c, d, from, to) { return d in has_marks ? marked_bytes(c, from, to) : bytes(c, from, to - from) }

# The bytes of a run from a place to another, those of a descriptor's head in bold.
function run_piece(c, d, from, to, head) {
    head = d ? at[d] + 4 : 0
    if (from >= head) return plain_bytes(c, d, from, to)
    if (to <= head) return "<b>" plain_bytes(c, d, from, to) "</b>"
    return "<b>" plain_bytes(c, d, from, head) "</b> " plain_bytes(c, d, head, to)
}

# The label of a run, in the line where it begins.
function run_told(i, c, r, k) {
    if (!run_d[r]) return "<li>" run_label[r]
    k = run_d[r] - low[c] + 1
    return "<li><a id=\"m" i "-" k "\" class=\"k" k % hues "\" href=\"#f" i "-" k "\">" k "</a> " feature[run_d[r]] "h " esc(title[run_d[r]])
}

# The marks from a place to another, in words.
function marks_told(c, from, to, first, s, n) {
    s = ""
    first = start[c]
    for (; from < to; from += n) {
        n = 1
        if (marked[first + from] == "") continue
        while (marked[first + from] == "at fault" && from + n < to && marked[first + from + n] == "at fault") n++
        s = s "<li class=\"bad\">" places(from, n) ": " marked[first + from]
    }
    return s
}

# A line of the map, and the run that the next one begins in.
function map_line(i, c, r, line, stop, from, to, cells, labels, d) {
    cells = labels = ""
    for (from = line; from < stop; from = to) {
        to = least(run_to[r], stop)
        d = run_d[r]
        cells = cells (from > line ? " " : "") "<i class=\"" run_kind[r] (from > run_from[r] ? " l" : "") (to < run_to[r] ? " r" : "") (d ? "\" data-n=\"" i "-" d - low[c] + 1 : "") "\">" run_piece(c, d, from, to) "</i>"
        if (from == run_from[r]) labels = labels run_told(i, c, r)
        if (d in has_marks) labels = labels marks_told(c, from, to)
        if (to == run_to[r]) r++
    }
    print "<tr><th scope=\"row\">", line, "<td>", cells, (labels == "" ? "<td>" : "<td><ul>" labels "</ul>")
    return r
}

# Whether a line stands in the midst of a run that has no descriptor and all its bytes, and those of the line before, are 0.
function is_zero(c, line) { return bytes(c, line, 16) == "00 00 00 00 00 00 00 00 00 00 00 00 00 00 00 00" }

# How many lines of the map from here on are but zeros that belong to no descriptor: of many it says how many, and shows none.
function zeros_from(c, r, line, n) {
    if (run_d[r] || run_from[r] >= line) return 0
    for (n = 0; line + 16 * n + 16 <= run_to[r] && is_zero(c, line + 16 * n); n++) {}
    return n
}

function page_map(i, c, r, line, n) {
    if (!size[c]) return
    heading("Bytes")
    make_runs(c)
    wide("Bytes", c)
    table_head("map", "At|Bytes|What begins here")
    r = 1
    for (line = 0; line < size[c]; line += 16) {
        n = zeros_from(c, r, line)
        if (n > 2) {
            print "<tr><th scope=\"row\">", line, "<td><i class=\"rest l r\">00 .. 00</i><td>", places(line, 16 * n), ": all 0"
            line += 16 * n
            if (line == run_to[r]) r++
            if (line >= size[c]) break
        }
        r = map_line(i, c, r, line, least(line + 16, size[c]))
    }
    table_end()
    print "</div>"
}
