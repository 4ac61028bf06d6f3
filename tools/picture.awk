# What tools/picture draws, from a report and its sheet; SHEET_NAME is the drawing's name, and PLAINEST is
# not empty where the report names plainest products. Nothing is printed before both are read. Exit status:
# 0 drawn, 3 the one is not the report of the other.

BEGIN {
    # Each of these colours has a line or a shape of its own as well.
    RED = "firebrick"; PALE = "mistyrose"; PURPLE = "purple4"; GREY = "gray40"; INK = "gray10"
    FONT = "fontname=\"Helvetica,Arial,sans-serif\""
    ROW = 22 # letters of a guard or a list of names before it goes on below
    features = 0
    products = 1
    fits = 1
}

kind == "report" && $1 == "move" && NF == 5 && $3 ~ /^(dead|false|must|may)$/ {
    judged[$2] = $3; made[$2] = $4; missed[$2] = $5; judgements++
    product($4, $3 != "dead"); product($5, $3 == "may")
    next
}
kind == "report" && $1 == "state" && NF == 5 && $3 ~ /^(unreached|end|hidden|live)$/ {
    states[++last_state] = $2; shown[$2] = $3; count[$2] = $4; stuck[$2] = $5
    product($5, $3 == "hidden")
    next
}
kind == "report" && $1 == "stop" && NF == 4 && $3 ~ /^(untrue|idle|true)$/ {
    told[$2] = $3; gets_on[$2] = $4; tellings++
    product($4, $3 == "untrue")
    next
}
kind == "report" && $1 == "depth" && NF == 2 { depth = $2; next }
kind == "report" { fits = 0; next }

$1 == "feature" { feature[features] = $2; weight[features++] = products; products *= 2 }
$1 == "start" { start = $2; if (!($2 in shown)) fits = 0 }
$1 == "move" {
    moves[++last_move] = FNR; from[FNR] = $2; action[FNR] = $3; to[FNR] = $4; guard[FNR] = $5
    out_of[$2] = out_of[$2] " " $5
    if (!(FNR in judged) || !($2 in shown) || !($4 in shown)) fits = 0
}
$1 == "stop" {
    stops[++last_stop] = FNR; at[FNR] = $2; guard[FNR] = $3
    if (!(FNR in told) || !($2 in shown)) fits = 0
}

# A product's field of the report; `-` is one where none is wanted.
function product(field, wanted) {
    if (field !~ /^[0-9]+$/ && (wanted || field != "-")) fits = 0
    if (field + 0 > largest) largest = field + 0
}

END {
    if (!fits || judgements != last_move || tellings != last_stop || depth == "" || start == "" || largest >= products) exit 3
    print "digraph " quoted(ENVIRON["SHEET_NAME"]) " {"
    print "  graph [rankdir=LR, nodesep=0.35, ranksep=0.4, pad=0.2, labelloc=b, labeljust=l, " FONT ","
    print "    label=<" legend() ">]"
    print "  node [" FONT ", fontsize=14, width=0.5, height=0.5, color=" INK ", fontcolor=" INK "]"
    print "  edge [" FONT ", fontsize=12, arrowsize=0.8, color=" INK "]"
    print "  begin [shape=point, width=0.12, height=0.12]"
    print "  begin -> state" start " [penwidth=1.6]"
    for (i = 1; i <= last_state; i++) draw_state(states[i])
    for (i = 1; i <= last_move; i++) draw_move(moves[i])
    for (i = 1; i <= last_stop; i++) draw_stop(stops[i])
    print "}"
}

# ---- states, moves and stop lines

function draw_state(state,   verdict, label, look, lacking) {
    verdict = shown[state]
    label = "<b>" state "</b>"
    look = "shape=circle"
    if (verdict == "hidden") {
        lacking = names(stuck[state], out_of[state])
        label = label below("stuck" (lacking == "" ? "" : " without " lacking) ":<br/>" product_text(stuck[state]), RED)
        look = "shape=octagon, style=filled, fillcolor=" PALE ", color=" RED ", fontcolor=" RED ", penwidth=2.5, margin=0.02"
    }
    if (verdict == "unreached") {
        label = label below("unreached", GREY)
        look = "shape=ellipse, style=dashed, color=" GREY ", fontcolor=" GREY ", margin=0.02"
    }
    if (verdict == "end") look = "shape=doublecircle"
    if (some_only(state)) label = label below(count[state] " of " count[start], GREY)
    print "  state" state " [label=<" label ">, " look "]"
}

function draw_move(line,   verdict, label, look, colour) {
    verdict = judged[line]
    colour = verdict == "dead" ? RED : verdict == "false" ? PURPLE : INK
    label = plain(action[line])
    if (verdict == "dead") label = "<s>" label "</s>"
    label = "<b>" label "</b><br/>" guard_text(guard[line])
    look = "style=" (verdict == "may" ? "dashed" : "solid")
    if (verdict == "dead") {
        label = label below("dead, line " line ":<br/>" (missed[line] == "-" ? "nobody gets to " from[line] : "missed by all, first " product_text(missed[line])), RED)
        look = "style=dotted, penwidth=2.2, arrowhead=tee, color=" RED
    }
    if (verdict == "false") {
        label = label below("false optional, line " line ":<br/>made by all, first " product_text(made[line]), PURPLE)
        look = "color=\"" PURPLE ":invis:" PURPLE "\", penwidth=1.4"
    }
    print "  state" from[line] " -> state" to[line] " [label=<" airy(label) ">, fontcolor=" colour ", " look "]"
}

# A stop line is a note at its state.
function draw_stop(line,   verdict, label, look, colour) {
    verdict = told[line]
    colour = verdict == "untrue" ? RED : verdict == "idle" ? GREY : INK
    label = "<font point-size='12'><b>stop</b></font> " guard_text(guard[line])
    look = "style=" (verdict == "idle" ? "dashed" : "solid")
    if (verdict == "idle") label = label below("idle, line " line ":<br/>never applies", GREY)
    if (verdict == "untrue") {
        label = label below("untrue, line " line ":<br/>gets on: " product_text(gets_on[line]), RED)
        look = "style=filled, fillcolor=" PALE ", penwidth=2"
    }
    print "  stop" line " [shape=note, margin=0.03, label=<" airy(label) ">, color=" colour ", fontcolor=" colour ", " look "]"
    print "  state" at[line] " -> stop" line " [style=dotted, arrowhead=none, color=" colour "]"
    print "  { rank=same; state" at[line] "; stop" line " }"
}

# ---- the legend, below the drawing: the kinds that occur, two in a row

function legend(   kinds, text, i) {
    for (i = 1; i <= last_move; i++) kinds[judged[moves[i]]] = 1
    for (i = 1; i <= last_state; i++) kinds[shown[states[i]]] = 1
    for (i = 1; i <= last_stop; i++) kinds[told[stops[i]]] = 1
    if ("dead" in kinds) explain(lines(1, "border='2' style='dotted' color='" RED "'"), "dead: no valid product makes it")
    if ("false" in kinds) explain(lines(2, "border='1' color='" PURPLE "'"), "false optional: all who get there make it")
    if ("must" in kinds) explain(lines(1, "border='1'"), "must: its guard holds in every product")
    if ("may" in kinds) explain(lines(1, "border='1' style='dashed'"), "may: some make it, some do not")
    if ("hidden" in kinds) explain(box("octagon", "border='2' color='" RED "' bgcolor='" PALE "'"), "hidden deadlock: it has moves, and somebody is stuck")
    if ("unreached" in kinds) explain(box("dashed", "style='dashed' color='" GREY "'"), "unreached: no valid product gets there")
    if ("end" in kinds) explain(box("double", ""), "end: no move line leads out")
    if ("true" in kinds) explain(box("note", ""), "stop line: a deadlock that is meant")
    if ("untrue" in kinds) explain(box("note", "border='2' color='" RED "' bgcolor='" PALE "'"), "untrue stop line: somebody gets on")
    if ("idle" in kinds) explain(box("note", "style='dashed' color='" GREY "'"), "idle stop line: it never applies")
    text = "<table border='0' cellborder='0' cellspacing='4' cellpadding='0'>"
    for (i = 1; i <= last_entry; i += 2)
        text = text "<tr>" entries[i] "<td width='12'></td>" (i < last_entry ? entries[i + 1] : "") "</tr>"
    text = text "<tr><td align='left' colspan='5'>" small(footer(), GREY) "</td></tr>"
    return text "</table>"
}

function footer(   text, i) {
    text = "Valid products: " count[start] ". Depth: " depth "."
    if (names_a_product()) text = text " {..} is the " (ENVIRON["PLAINEST"] ? "plainest product that shows it" : "product that the report names") ", by its features."
    for (i = 1; i <= last_state; i++)
        if (some_only(states[i])) return text "<br align='left'/>n of " count[start] ": so many valid products get there.<br align='left'/>"
    return text
}

# Whether a product is named anywhere in the drawing.
function names_a_product(   i) {
    for (i = 1; i <= last_move; i++) if (judged[moves[i]] == "false" || judged[moves[i]] == "dead" && missed[moves[i]] != "-") return 1
    for (i = 1; i <= last_state; i++) if (shown[states[i]] == "hidden") return 1
    for (i = 1; i <= last_stop; i++) if (told[stops[i]] == "untrue") return 1
    return 0
}

function explain(sample, text) {
    entries[++last_entry] = "<td align='left'>" sample "</td><td align='left'>" small(text, INK) "</td>"
}

# A sample of one line or two, and one of a shape, by its name.
function lines(number, look,   text) {
    text = "<tr><td width='34' height='6' sides='b' " look "></td></tr>"
    if (number == 2) text = text "<tr><td height='3' sides='b' " look "></td></tr>"
    return "<table border='0' cellborder='0' cellspacing='0' cellpadding='0'>" text "<tr><td height='6'></td></tr></table>"
}

function box(word, look) {
    return "<table border='0' cellborder='1' cellspacing='0' cellpadding='2'><tr><td width='40' " look ">" small(word, INK) "</td></tr></table>"
}

# ---- words

function quoted(text) {
    gsub(/[\\"]/, "\\\\&", text)
    return "\"" text "\""
}

# A text within a label that has marks.
function plain(text) {
    gsub(/&/, "\\&amp;", text)
    gsub(/</, "\\&lt;", text)
    gsub(/>/, "\\&gt;", text)
    return text
}

function small(text, colour) { return "<font point-size='10' color='" colour "'>" text "</font>" }

function below(text, colour) { return "<br/>" small(text, colour) }

# A label with some air around it, which keeps it off the lines.
function airy(text) {
    return "<table border='0' cellborder='0' cellspacing='0' cellpadding='4'><tr><td>" text "</td></tr></table>"
}

function guard_text(text,   rows, row, i, byte) {
    for (i = 1; i <= length(text); i++) {
        byte = substr(text, i, 1)
        row = row byte
        if (length(row) >= ROW && index("&|?:", byte)) {
            rows = rows plain(row) "<br/>"
            row = ""
        }
    }
    return "<font face='Courier New,Courier,monospace' point-size='11'>" rows plain(row) "</font>"
}

function product_text(number,   list) {
    list = names(number, "")
    return "<b>" (list == "" ? "no feature" : "{" list "}") "</b>"
}

# The features of a product; or, of those that stand in the guards, the ones that it lacks.
function names(number, guards,   list, width, i) {
    for (i = 0; i < features; i++) {
        if (guards == "" ? !has(number, i) : has(number, i) || !stands_in(feature[i], guards)) continue
        if (width > ROW) { list = list ",<br/>"; width = 0 } else if (list != "") list = list ", "
        list = list plain(feature[i])
        width += length(feature[i]) + 2
    }
    return list
}

function has(number, i) { return int(number / weight[i]) % 2 == 1 }

function stands_in(name, guards,   parts, n, i) {
    n = split(guards, parts, /[^A-Za-z0-9_]+/)
    for (i = 1; i <= n; i++) if (parts[i] == name) return 1
    return 0
}

# Whether some valid products get to the state and others do not.
function some_only(state) { return count[state] + 0 > 0 && count[state] + 0 < count[start] + 0 }
