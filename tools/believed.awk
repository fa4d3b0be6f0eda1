# What has to be believed, from the tree; tools/believed calls it, and says what it prints. It reads crates.txt and docs/theorems.txt, then
# the specs of all crates in reading order and their theorems in proofs/, the sources of the libraries, and the documents that promise
# theorems. All is bytes (LC_ALL=C).
#
# An item is a definition, a type or a law of a file of specs/ or proofs/, known by file and name, as `tokens/specs/Scan best`. Its chunks
# are its statement and its clauses, or a type's head and its fields or constructors. The heads of the modules around it belong to it too.
# A root is a crate, for the contracts of its public functions, or a theorem.

# ---- reading ----

# A line without its comment, its quoted texts emptied.
function bare(line) {
    gsub(/"([^"\\]|\\.)*"/, "\"\"", line)
    sub(/(^| )--( .*)?$/, "", line)
    sub(/ +$/, "", line)
    return line
}

# A line of crates.txt: the groups, and the crates of each.
function take_crate(line) {
    if (line ~ /^# /) {
        group = substr(line, 3)
        sub(/^the /, "", group)
        sub(/:.*/, "", group)
    } else if (sub(/( staticlib)?:.*/, "", line)) {
        crate_at[++crates] = line
        group_of[line] = group
    }
}

# What `use MODULE.{a, b as c}` or `use MODULE as m` brings into the file.
function take_use(line,    module, parts, n, i, pair) {
    sub(/^ *(ghost )?use /, "", line)
    sub(/;$/, "", line)
    if (match(line, /[.][{].*[}]$/)) {
        module = substr(line, 1, RSTART - 1)
        n = split(substr(line, RSTART + 2, RLENGTH - 3), parts, /, */)
        for (i = 1; i <= n; i++) {
            if (split(parts[i], pair, / as /) == 1) pair[2] = pair[1]
            used_from[file, pair[2]] = module
            used_name[file, pair[2]] = pair[1]
        }
    } else if (match(line, / as /)) alias[file, substr(line, RSTART + 4)] = substr(line, 1, RSTART - 1)
}

# Begins an item at this line, or at the comment right above it.
function begin_item(sort, called,    i) {
    item = file " " called
    order[++items] = item
    kind[item] = sort
    file_of[item] = file
    name_of[item] = called
    owner[file, called] = item
    by_name[called] = by_name[called] item "\n"
    if (public) is_public[item] = 1
    first_line[item] = comment ? comment : FNR
    heads[item] = modules
    for (i = 1; i <= modules; i++) head[item, i] = module_at[i]
}

# Begins a chunk of the item.
function begin_chunk(text) {
    chunk[item, ++chunks[item]] = text
    chunk_open = 1
}

# A line that goes on with the chunk.
function go_on(text) {
    if (chunk_open) chunk[item, chunks[item]] = chunk[item, chunks[item]] " " text
}

# A line where items begin: an item's first one, or a clause.
function take_front(line,    w, i) {
    if (line ~ /^unfolding /) { chunk_open = 0; return }
    if (line ~ /^[])}]/) { go_on(line); return }
    split(line, w, " ")
    public = 0
    for (i = 1; w[i] ~ /^(abbrev|unfoldable|pub)$/; i++) {
        if (w[i] == "pub") public = 1
        sub(/^[a-z]+ /, "", line)
    }
    if (w[i] ~ /^(data|record)$/) {
        begin_item(w[i], w[i + 1])
        sub(/^[a-z]+ [^ ]+ /, "", line)
    } else if (i > 1 || w[i + 1] == ":") {
        begin_item(w[1] ~ /^(abbrev|unfoldable)$/ ? "definition" : "plain", w[i])
        sub(/^[^ ]+ : ?/, "", line)
    } else if (w[1] != name_of[item]) complain(FILENAME ", line " FNR ": " w[1] " begins neither an item nor a clause of one")
    begin_chunk(line)
}

# A line of the fields or constructors of a type.
function take_part(line,    w, n, i) {
    sub(/^pub /, "", line)
    n = split(line, w, " ")
    for (i = 1; kind[item] == "data" && i <= n && w[i] != ":"; i++) {
        owner[file, w[i]] = item
        is_constructor[file, w[i]] = 1
    }
    begin_chunk(line)
}

# A line of a module's head, which ends with `where`.
function take_head(line) {
    head_text[module_at[modules]] = head_text[module_at[modules]] " " line
    head_end[module_at[modules]] = FNR
    in_head = line !~ /(^| )where$/
}

# A line of a specs file that is neither empty nor a comment.
function take_spec(line,    indent) {
    match(line, /^ */)
    indent = RLENGTH
    line = substr(line, indent + 1)
    if (in_head) { take_head(line); return }
    while (indent < 2 * modules) modules--
    if (line ~ /^use /) { take_use(line); return }
    if (line ~ /^open /) return
    if (line ~ /^module /) {
        module_at[++modules] = file " " FNR
        head_start[module_at[modules]] = comment ? comment : FNR
        sub(/^module [^ ]+/, "", line)
        take_head(line)
        return
    }
    if (indent == 2 * modules) take_front(line)
    else if (kind[item] ~ /^(data|record)$/ && indent == 2 * modules + 2) take_part(line)
    else go_on(line)
    last_line[item] = FNR
    if (chunk_open && chunks[item] == 1) statement_end[item] = FNR
}

# A line of a source: the contracts of its public functions.
function take_source(line) {
    if (line ~ /^ *ghost use /) take_use(line)
    else if (line ~ /^ *pub (const |unsafe |extern "C" )*fn /) {
        signature = line
        contract = ""
        in_signature = line !~ /[{]$/
    } else if (in_signature && line ~ /^ *[{]$/) {
        in_signature = 0
        contract_file[++contracts] = file
        contract_text[contracts] = contract
        contract_signature[contracts] = signature
    } else if (in_signature && (contract != "" || line ~ /^ *(requires|ensures) /)) {
        sub(/^ *(requires|ensures)[*]? ([a-z_]+ )?/, "", line)
        contract = contract " " line
    } else if (in_signature) {
        signature = signature " " line
        if (line ~ /[{]$/) in_signature = 0
    }
}

# A row of a document: what stands in a column of statements.
function take_row(line,    n, cells, i) {
    if (line !~ /^[|]/) { in_table = 0; return }
    n = split(line, cells, / *[|] */)
    for (i = 1; i <= n; i++)
        if (!in_table) is_statement[i] = cells[i] ~ /^((The s|S)tatement|What shows it)$/
        else if (is_statement[i]) {
            promised_row[++promised] = line
            promised_cell[promised] = cells[i]
            promised_in[promised] = FILENAME
        }
    in_table = 1
}

# ---- names ----

# Binds a name until the brackets of this depth are left.
function bind(name, depth) {
    bound_name[++bounds] = name
    bound_depth[bounds] = depth
    bound[name]++
}

# Leaves what is deeper.
function leave(depth) {
    while (bounds && bound_depth[bounds] > depth) bound[bound_name[bounds--]]--
}

# What a name of a module is: an item, `code CRATE TYPE` or `kit WORD`; nothing where it is not known.
function in_module(module, name,    parts, n) {
    n = split(module, parts, ".")
    if (parts[1] != "Rattle" || !(parts[2] in group_of)) return "kit " name
    if (parts[4] == "declared") return "code " parts[2] " " parts[parts[n] == "TheVariants" ? n - 1 : n]
    return owner[parts[2] "/" parts[3] "/" parts[4], name]
}

# What a name is in a file: its own, one that is used, or one behind the name of a module.
function meaning(place, name,    dot) {
    if ((place, name) in owner) return owner[place, name]
    if ((place, name) in used_from) return in_module(used_from[place, name], used_name[place, name])
    dot = index(name, ".")
    if (dot && (place, substr(name, 1, dot - 1)) in alias) return in_module(alias[place, substr(name, 1, dot - 1)], substr(name, dot + 1))
    return ""
}

# The same of an operator too, which stands between or beside its arguments.
function resolved(place, word,    found, core) {
    found = meaning(place, word)
    if (found != "") return found
    core = word
    gsub(/◌/, "", core)
    found = meaning(place, "◌" core "◌")
    if (found == "") found = meaning(place, core "◌")
    if (found == "") found = meaning(place, "◌" core)
    # what clauses know without a line that names it
    if (found == "" && word ~ /^(Some|None|Ok|Err)$/) found = "kit " word
    return found
}

# Whether a word of a pattern is a constructor and no variable.
function constructs(place, word,    found) {
    found = resolved(place, word)
    sub(/.*[.]/, "", word)
    return found ~ /^(kit|code) / || found != "" && (file_of[found], word) in is_constructor
}

# Whether a word can be a name: it is no sign, number, projection or word of the language.
function is_name(word) {
    return word !~ /^([0-9.].*|"")$/ && !(word in language)
}

# ---- what a text says ----

# The words of a text.
function words_of(text, w) {
    gsub(/[(){},;]/, " & ", text)
    gsub(/[.]( |$)/, " . ", text)
    return split(text, w, " ")
}

# Where a word stands from i on, inside the brackets that are open; 0 where `stop` or the end comes first.
function find(w, i, n, word, stop,    depth) {
    for (depth = 0; i <= n && depth >= 0; i++) {
        if (depth == 0 && w[i] == word) return i
        if (depth == 0 && w[i] == stop) return 0
        if (w[i] ~ /^[({[]$/) depth++
        if (w[i] ~ /^[])}]$/) depth--
    }
    return 0
}

# A name is said: unless it is bound, what it stands for is reached from `source`.
function say(source, place, word,    found, front) {
    front = word
    sub(/[.].*/, "", front)
    # of a projection, as `c.tokens`, what it is taken of
    if (front != "" && !((place, front) in alias)) word = front
    if (!is_name(word) || bound[word] > 0) return
    found = resolved(place, word)
    if (found == "") complain(source " says " word ", and nothing tells what that is")
    else if (!is_law(found)) reaches[source, ++outs[source]] = found
}

# The words i to n of a pattern: constructors are said, variables bound.
function say_pattern(source, place, w, i, n, depth) {
    for (; i <= n; i++)
        if (constructs(place, w[i])) say(source, place, w[i])
        else if (is_name(w[i])) bind(w[i], depth)
}

# The words i to n of a text. Names are bound by `λ x.`, `(x : T)`, `let x = .. in` and the patterns before `↦`; before `=` in a record
# stands a field.
function say_text(source, place, w, i, n, depth,    j, binding, lets, let_from, let_to) {
    for (; i <= n; i++) {
        if (w[i] == "λ") binding = 1
        else if (w[i] == ".") binding = 0
        else if (w[i] ~ /^[({]$/) {
            for (j = i + 1; j <= n && is_name(w[j]); ) j++
            if (w[j] == ":") while (++i < j) bind(w[i], depth)
            depth++
        } else if (w[i] == "[" || w[i] == "|") {
            if (w[i] == "[") depth++
            else leave(depth - 1)
            j = find(w, i + 1, n, "↦", "|")
            if (j) { say_pattern(source, place, w, i + 1, j - 1, depth); i = j }
        } else if (w[i] ~ /^[])}]$/) leave(--depth)
        else if (w[i] == "let") {
            let_from[++lets] = i + 1
            while (i < n && w[i] != "=" && w[i] != ":") i++
            let_to[lets] = i - 1
        } else if (w[i] == "in") {
            say_pattern(source, place, w, let_from[lets], let_to[lets], depth)
            lets--
        } else if (w[i + 1] == "=" && w[i - 1] ~ /^[{;]$/) i++
        else if (binding) bind(w[i], depth)
        else say(source, place, w[i])
    }
}

# Whether an item is a law: no definition by its mark, and what it states is a relation.
function is_law(it,    w, n, i, depth, relation) {
    if (!(it in kind) || kind[it] != "plain") return 0
    n = words_of(chunk[it, 1], w)
    for (i = 1; i <= n; i++) {
        if (w[i] ~ /^[({]$/) depth++
        if (w[i] ~ /^[)}]$/) depth--
        if (depth == 0 && w[i] == "→") relation = 0
        if (depth == 0 && w[i] ~ /^(≡|≤|<|↔)$/) relation = 1
    }
    return relation
}

# The heads of the modules around an item; their parameters stay bound.
function say_heads(it,    i, w, n) {
    leave(-1)
    for (i = 1; i <= heads[it]; i++) {
        n = words_of(head_text[head[it, i]], w)
        say_text(it, file_of[it], w, 1, n, 0)
    }
}

# The statement of a definition or theorem.
function say_statement(it,    w, n) {
    n = words_of(chunk[it, 1], w)
    say_text(it, file_of[it], w, 1, n, 1)
}

# A clause: a pattern up to its `=`.
function say_clause(it, text,    w, n, j) {
    leave(0)
    n = words_of(text, w)
    j = find(w, 1, n, "=", "")
    say_pattern(it, file_of[it], w, 2, j - 1, 1)
    say_text(it, file_of[it], w, j + 1, n, 1)
}

# A type: its head, then each field or constructor; a field is bound in those below it.
function say_type(it,    i, w, n, j) {
    n = words_of(chunk[it, 1], w)
    say_text(it, file_of[it], w, 1, n, 0)
    for (i = 2; i <= chunks[it]; i++) {
        n = words_of(chunk[it, i], w)
        j = find(w, 1, n, ":", "")
        say_text(it, file_of[it], w, j + 1, n, 1)
        leave(0)
        while (--j > 0) bind(w[j], 0)
    }
}

# All that an item's meaning is made of; of a theorem its statement.
function say_item(it,    i) {
    if (it in is_said) return
    is_said[it] = 1
    say_heads(it)
    if (kind[it] ~ /^(data|record)$/) say_type(it)
    else say_statement(it)
    if (kind[it] ~ /^(definition|plain)$/ && !(it in is_theorem)) for (i = 2; i <= chunks[it]; i++) say_clause(it, chunk[it, i])
}

# A contract, with the parameters of its function bound, and its type parameter, one letter: it belongs to its crate.
function say_contract(i,    crate, parts, n, k, w) {
    crate = contract_file[i]
    sub(/[/].*/, "", crate)
    add_root(crate)
    leave(-1)
    if (match(contract_signature[i], /fn [a-z0-9_]+</)) {
        bind(substr(contract_signature[i], RSTART + RLENGTH, 1), 0)
        sub(/^.*>[(]/, "", contract_signature[i])
    } else sub(/^[^(]*[(]/, "", contract_signature[i])
    n = split(contract_signature[i], parts, ",")
    for (k = 1; k <= n; k++) {
        sub(/^ *(&('[a-z]+ )?)?(mut )?/, "", parts[k])
        sub(/[:)].*/, "", parts[k])
        bind(parts[k], 0)
    }
    n = words_of(contract_text[i], w)
    say_text(crate, contract_file[i], w, 1, n, 1)
}

# ---- what is reached ----

function add_root(root) {
    if (root in is_root) return
    is_root[root] = 1
    root_at[++roots] = root
}

# Everything that a root reaches.
function reach(root,    queue, at, end, it, i, found, seen) {
    queue[end = 1] = root
    for (at = 1; at <= end; at++) {
        it = queue[at]
        if (it in kind) { say_item(it); mark(root, it) }
        for (i = 1; i <= outs[it]; i++) {
            found = reaches[it, i]
            if (found in seen) continue
            seen[found] = 1
            if (found ~ /^kit /) add_word(found)
            else if (found ~ /^code /) add_type(found)
            else queue[++end] = found
        }
    }
}

# An item that a root reaches: its lines are to be read, those of a theorem up to its proof, and the heads around it.
function mark(root, it,    place, i, last) {
    place = file_of[it]
    if (!((place, root) in is_from)) {
        is_from[place, root] = 1
        from[place] = from[place] root "\n"
    }
    if (it in is_reached) return
    is_reached[it] = 1
    last = it in is_theorem ? statement_end[it] : last_line[it]
    for (i = first_line[it]; i <= last; i++) read_line(place, i)
    for (i = 1; i <= heads[it]; i++) read_head(place, head[it, i])
}

function read_head(place, at,    i) {
    for (i = head_start[at]; i <= head_end[at]; i++) read_line(place, i)
}

# A line to read, counted once.
function read_line(place, i) {
    if ((place, i) in is_read) return
    is_read[place, i] = 1
    lines[place]++
}

# A word of the kit.
function add_word(found) {
    if (found in is_added) return
    is_added[found] = 1
    word_at[++words] = substr(found, 5)
}

# A type that the code declares.
function add_type(found,    parts) {
    if (found in is_added) return
    is_added[found] = 1
    split(found, parts, " ")
    types++
    types_of[parts[2]] = types_of[parts[2]] (types_of[parts[2]] == "" ? "" : ", ") "`" parts[3] "`"
}

# Every theorem that a document promises is one of docs/theorems.txt.
function hold_promise(i,    n, parts, k, m, found, j) {
    n = split(promised_cell[i], parts, "`")
    for (k = 2; k <= n; k += 2) {
        m = split(by_name[parts[k]], found, "\n") - 1
        for (j = 1; j <= m; j++)
            if (is_promised(found[j], promised_row[i]) && !(found[j] in is_theorem))
                complain(promised_in[i] " promises " parts[k] ", and docs/theorems.txt does not have " found[j])
    }
}

# Whether an item is a public theorem whose file stands in the row, as two do in `tokens/proofs/ScanLaws, ListLaws`.
function is_promised(it, row,    parts) {
    split(file_of[it], parts, "/")
    return kind[it] == "plain" && it in is_public && index(row, parts[1] "/" parts[2] "/") && row ~ ("[^A-Za-z0-9]" parts[3] "[^A-Za-z0-9]")
}

# ---- the table ----

# One more of a list.
function listed(list, one) {
    return list == "" ? one : list ", " one
}

# What reaches a file: crates, or from five on their groups; theorems, or from five on how many.
function reasons(place,    n, all, i, crates, groups, theorems, crate_count, theorem_count, is_group) {
    n = split(from[place], all, "\n") - 1
    for (i = 1; i <= n; i++)
        if (all[i] in is_theorem) {
            theorem_count++
            theorems = listed(theorems, "`" name_of[all[i]] "`")
        } else {
            crate_count++
            crates = listed(crates, all[i])
            if (!(group_of[all[i]] in is_group)) groups = listed(groups, group_of[all[i]])
            is_group[group_of[all[i]]] = 1
        }
    if (crate_count > 4) crates = groups
    if (theorem_count > 4) theorems = theorem_count " theorems"
    return crates (crates != "" && theorems != "" ? "; " : "") theorems
}

# The names that are reached in a file, theorems in bold.
function names_in(place,    i, it, name, names) {
    for (i = 1; i <= items; i++) {
        it = order[i]
        if (file_of[it] != place || !(it in is_reached)) continue
        name = "`" name_of[it] "`"
        names = listed(names, it in is_theorem ? "**" name "**" : name)
    }
    return names
}

# A row for each file, in the order in which they were read, and one each for the types of the code, the kit and all together.
function print_table(    i, it, place, is_printed, files, count, sum, list) {
    print "| File | Lines to read | Reached from | Definitions, and theorems in bold |"
    print "|---|---|---|---|"
    for (i = 1; i <= items; i++) {
        it = order[i]
        if (!(it in is_reached)) continue
        count[it in is_theorem]++
        place = file_of[it]
        if (place in is_printed) continue
        is_printed[place] = 1
        files++
        sum += lines[place]
        print "| " place " | " lines[place] " | " reasons(place) " | " names_in(place) " |"
    }
    for (i = 1; i <= crates; i++) if (crate_at[i] in types_of) list = list (list == "" ? "" : "; ") crate_at[i] " " types_of[crate_at[i]]
    print "| types of the code | | | " list " |"
    list = ""
    for (i = 1; i <= words; i++) list = listed(list, "`" word_at[i] "`")
    gsub(/[|]/, "\\|", list)
    print "| words of the kit | | | " list " |"
    list = sprintf("%d definitions, %d theorems; %d types of the code, %d words of the kit", count[0], count[1], types, words)
    print "| **all**: " files " files | " sum " | " contracts " contracts | " list " |"
}

# Something that the tree has and this program cannot tell.
function complain(text) {
    print "believed: " text > "/dev/stderr"
    complaints++
}

BEGIN {
    n = split("( ) { } [ ] , ; : = | → × Type Unit ⊥ tt in let λ record where elim ↦ _ result", w, " ")
    for (i = 1; i <= n; i++) language[w[i]] = 1
}
FNR == 1 {
    file = FILENAME
    sub(/^crates[/]/, "", file)
    sub(/[.](antt|rt)$/, "", file)
    modules = in_head = comment = in_signature = chunk_open = 0
    item = ""
}
FILENAME == "crates.txt" { take_crate($0); next }
FILENAME == "docs/theorems.txt" { if ($0 !~ /^(#|$)/) theorem[++theorems] = $0; next }
FILENAME ~ /[.]md$/ { take_row($0); next }
FILENAME ~ /[.]rt$/ { take_source($0); next }
/^ *$/ { comment = 0; next }
/^ *--/ { if (!comment) comment = FNR; next }
{ take_spec(bare($0)); comment = 0 }
END {
    for (i = 1; i <= theorems; i++)
        if ((theorem[i] in kind) && kind[theorem[i]] == "plain") is_theorem[theorem[i]] = 1
        else complain("docs/theorems.txt names " theorem[i] ", which is no theorem there")
    for (i = 1; i <= contracts; i++) say_contract(i)
    for (i = 1; i <= theorems; i++) if (theorem[i] in is_theorem) add_root(theorem[i])
    for (i = 1; i <= roots; i++) reach(root_at[i])
    for (i = 1; i <= promised; i++) hold_promise(i)
    print_table()
    exit complaints > 0
}
