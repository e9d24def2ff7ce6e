# What tools/timeline prints. Variables: form (table, svg or trace), plan (the script's lines and the phases asked for behind
# them), shown (a line for each `sent` of the trace: its message). The input is the trace. It keeps to what every awk has.

BEGIN {
    split("Idle|Transfer Error|Transfer Active|Verifying Update|Verification Succeeded|Verification Failed|Applying Update|Transfer Canceled|Apply Success|Apply Failed|Phase Unknown", update_phases, "|")
    split("Inactive|Waiting For Transfer Start|Waiting For Next Block|Waiting For Next Chunk|Transfer Complete|Suspended", blob_phases, "|")
    split("Idle|Transfer Active|Transfer Success|Applying Update|Completed|Failed|Canceling Update|Transfer Suspended", distribution_phases, "|")
    split("Idle|Transfer Active|Transfer Error|Transfer Success", upload_phases, "|")
    split("Success|Insufficient Resources|Wrong Phase|Internal Error|Wrong Firmware Index|Metadata Check Failed|Temporarily Unavailable|BLOB Transfer Busy", update_statuses, "|")
    split("Success|Invalid Block Number|Invalid Block Size|Invalid Chunk Size|Wrong Phase|Invalid Parameter|Wrong BLOB ID|BLOB Too Large|Unsupported Transfer Mode|Internal Error|Information Unavailable", blob_statuses, "|")
    split("Success|Insufficient Resources|Wrong Phase|Internal Error|Firmware Not Found|Invalid AppKey Index|Receivers List Empty|Busy With Distribution|Busy With Upload|URI Not Supported|URI Malformed|URI Unreachable|New Firmware Not Available|Suspend Failed", distribution_statuses, "|")
    split("#8795a5|#d9822b|#2f6fb3|#7a5195|#2e8b57|#b03a2e|#1b9e9e|#8a8a8a|#2e8b57|#b03a2e|#8795a5", colors, "|")
    messages = rows = lanes = packets = arrivals = marks = bars = 0
    sent_here = arrival_here = -1
    while ((getline text < shown) > 0) message[messages++] = text
}

{ trace[++traced] = $0 }

END {
    if (form == "trace") trace_alone()
    else follow_script()
    if (form == "svg") draw()
}

# ---- messages

function hex_digit(c) { return index("0123456789abcdef", tolower(c)) - 1 }
function octet(payload, place) { return 16 * hex_digit(substr(payload, 2 * place + 1, 1)) + hex_digit(substr(payload, 2 * place + 2, 1)) }

# the BLOB ID that stands at a place, as address:number
function blob_id(payload, place,    i, low) {
    low = 0
    for (i = 5; i >= 0; i--) low = 256 * low + octet(payload, place + i)
    return sprintf("%02x%02x:%.0f", octet(payload, place + 7), octet(payload, place + 6), low)
}

function id_place(payload,    opcode) {
    opcode = tolower(substr(payload, 1, 4))
    if (opcode == "8301") return 3
    if (opcode == "8302") return 2
    if (opcode == "8303") return 4
    if (opcode == "830d" || opcode == "831f") return 5
    if (opcode == "8310") return 7
    return -1
}

function named(number, names,    name) { name = names[number + 1]; return name == "" ? number : name }

function field_text(name, key, value, payload) {
    if (key == "id" && value !~ /[^0-9]/ && id_place(payload) >= 0) return "id=" blob_id(payload, id_place(payload))
    if (name ~ /^(transfer|block)-status$/ && key == "status") return "status=" named(value, blob_statuses)
    if (name == "transfer-status" && key == "phase") return "phase=" named(value, blob_phases)
    if (name ~ /^(update|metadata)-status$/ && key == "status") return "status=" named(value, update_statuses)
    if (name == "update-status" && key == "phase") return "phase=" named(value, update_phases)
    if (name ~ /^(distribution|receivers|upload|firmware)-status$/ && key == "status") return "status=" named(value, distribution_statuses)
    if (name == "distribution-status" && key == "phase") return "phase=" named(value, distribution_phases)
    if (name == "upload-status" && key == "phase") return "phase=" named(value, upload_phases)
    if (length(value) > 24 && value !~ /[^0-9a-f]/) return key "=" substr(value, 1, 16) "..(" length(value) / 2 " octets)"
    return key "=" value
}

# a shown line for people: statuses and phases by name, BLOB IDs as address:number, long octets cut short
function told(line, payload,    parts, count, i, at, text) {
    if (line == "?" || line == "") return "no message (" length(payload) / 2 " octets)"
    count = split(line, parts, " ")
    text = parts[1]
    for (i = 2; i <= count; i++) {
        at = index(parts[i], "=")
        text = text " " field_text(parts[1], substr(parts[i], 1, at - 1), substr(parts[i], at + 1), payload)
    }
    return text
}

# ---- the table

function say_line(line, moment, text) {
    if (form == "svg") return
    if (!headed) { printf "%6s %12s  %s\n", "line", "moment", "what"; headed = 1 }
    printf "%6s %12s  %s\n", line, moment, text
}

function at_moment(member) { return (member in moment) ? moment[member] " ms" : "" }

function phases_of(member, first, second) {
    if (kind[member] == "distributor") return "distribution " named(first, distribution_phases) ", upload " named(second, upload_phases)
    if (kind[member] == "updater") return first == 1 ? "ended" : "under way"
    return "update " named(first, update_phases) ", transfer " named(second, blob_phases)
}

function take_sent(line, member,    parts) {
    split(trace[at], parts, " ")
    say_line(line, at_moment(member), parts[3] " -> " parts[4] "  #" parts[2] " " told(message[sent_lines], parts[5]))
    add_packet(parts[2], parts[3], parts[4], told(message[sent_lines], parts[5]))
    sent_lines++
    at++
}

function take_boot(line, member,    parts) {
    split(trace[at], parts, " ")
    say_line(line, at_moment(member), member " boots: " parts[3] " records, " parts[4] " blocks held")
    add_mark(member, torn[member] ? "torn, boots" : "boots", torn[member] ? "#b03a2e" : "#d9822b")
    torn[member] = 0
    at++
}

function take_phase(line, member,    parts, now) {
    split(trace[at], parts, " ")
    now = parts[3] " " parts[4]
    if (now != phase[member]) {
        if (phase[member] != "" || form == "svg") say_line(line, "", member " is now in " phases_of(member, parts[3], parts[4]))
        phase[member] = now
        add_phase(member, parts[3], parts[4])
    }
    at++
}

# what the next lines of the trace say, up to a phase that was asked for
function take_rest(line, member) {
    while (at <= traced && trace[at] !~ /^(phase|refused) /) {
        if (trace[at] ~ /^sent /) take_sent(line, member)
        else if (trace[at] ~ /^boot /) take_boot(line, member)
        else { say_line(line, "", trace[at]); at++ }
        line = ""
    }
}

function follow_line(line, text,    parts, count) {
    count = split(text, parts, " ")
    if (count == 0 || text ~ /^#/) return
    if (trace[at] ~ /^refused / && at == traced) { refuse(line); return }
    if (parts[1] ~ /^(node|pair|old|updater|distributor)$/) {
        kind[parts[2]] = parts[1]; group[parts[2]] = parts[3]; add_lane(parts[2]); moment[parts[2]] = 0
        say_line(line, "", substr(text, 1, 90) (length(text) > 90 ? ".." : ""))
        return
    }
    next_row()
    if (parts[1] == "say") add_lane(parts[2])
    if (parts[1] == "deliver") {
        say_line(line, at_moment(parts[3]), parts[3] " gets #" parts[2])
        add_arrival(parts[2], parts[3]); take_rest("", parts[3])
    } else if (parts[1] == "time") {
        if (parts[3] > moment[parts[2]]) moment[parts[2]] = parts[3]
        say_line(line, at_moment(parts[2]), parts[2] " gets time")
        add_mark(parts[2], moment[parts[2]] " ms", "#555555"); take_rest("", parts[2])
    } else if (parts[1] == "tear") {
        torn[parts[2]] = 1
        say_line(line, "", parts[2] " will lose its power at flash operation " parts[3] " of an event, which leaves " parts[4])
        add_mark(parts[2], "tear at " parts[3] ", " parts[4], "#b03a2e")
    } else if (parts[1] == "phase") {
        take_phase(line, parts[2])
    } else {
        if (parts[1] == "settle") say_line(line, "", parts[2] " turns of 100 ms")
        take_rest(line, parts[2])
    }
}

function refuse(line,    parts) {
    split(trace[at], parts, " ")
    say_line(line, "", "refused at place " parts[3] ": " parts[4])
    at++
    stopped = 1
}

function follow_script(    item, parts, text) {
    at = 1
    sent_lines = 0
    while (!stopped && (getline item < plan) > 0) {
        split(item, parts, " ")
        if (parts[1] == "asked") { if (at <= traced && trace[at] ~ /^phase /) take_phase("", parts[2]) }
        else { text = item; sub(/^line [0-9]+ /, "", text); follow_line(parts[2], text) }
    }
}

function trace_alone(    parts) {
    sent_lines = 0
    for (at = 1; at <= traced;) {
        split(trace[at], parts, " ")
        if (parts[1] == "sent") take_sent("", parts[3])
        else if (parts[1] == "phase") { say_line("", "", parts[2] " is in " phases_of(parts[2], parts[3], parts[4])); at++ }
        else if (parts[1] == "boot") take_boot("", parts[2])
        else { say_line("", "", trace[at]); at++ }
    }
}

# ---- the picture: a lane for each member, time downwards

function next_row() { rows++ }

function add_lane(member) { if (!(member in lane)) { lane[member] = lanes++; lane_name[lanes - 1] = member } }

function add_packet(number, from, to, text) {
    if (number in sent_row) return
    if (sent_here == rows || arrival_here == rows) rows++
    sent_here = rows
    add_lane(from)
    if (to < "8000") add_lane(to)
    sent_row[number] = rows; sent_from[number] = from; sent_to[number] = to; sent_text[number] = text
    packet_number[packets++] = number
}

function add_arrival(number, member) {
    arrival_row[arrivals] = rows; arrival_packet[arrivals] = number; arrival_member[arrivals++] = member
    arrived[number]++
    arrival_here = rows
}

function add_mark(member, text, color) {
    mark_row[marks] = rows; mark_member[marks] = member; mark_text[marks] = text; mark_color[marks++] = color
}

function add_phase(member, first, second) {
    if (member in bar) { bar_end[bar[member]] = rows }
    bar_member[bars] = member; bar_start[bars] = rows; bar_phase[bars] = first
    bar_text[bars] = kind[member] == "distributor" ? named(first, distribution_phases) : (kind[member] == "updater" ? phases_of(member, first, second) : named(first, update_phases) " / " named(second, blob_phases))
    bar[member] = bars++
}

function x_of(member) { return 90 + 430 * lane[member] }
function y_of(row) { return 70 + 26 * row }
function escaped(text) { gsub(/&/, "\\&amp;", text); gsub(/</, "\\&lt;", text); gsub(/>/, "\\&gt;", text); return text }
function short(text) { return length(text) > 56 ? substr(text, 1, 54) ".." : text }

# strangers stand on the left, then the members in their order
function order_lanes(    i, place) {
    place = 0
    for (i = 0; i < lanes; i++) if (!(lane_name[i] in kind)) lane[lane_name[i]] = place++
    for (i = 0; i < lanes; i++) if (lane_name[i] in kind) lane[lane_name[i]] = place++
}

function write_text(x, y, size, color, anchor, text) {
    printf "<text x=\"%d\" y=\"%d\" font-size=\"%d\" fill=\"%s\" text-anchor=\"%s\" stroke=\"white\" stroke-width=\"3\" paint-order=\"stroke\">%s</text>\n", x, y, size, color, anchor, escaped(text)
}

function write_line(x1, y1, x2, y2, color, dashes,    length_of, dx, dy) {
    printf "<line x1=\"%d\" y1=\"%d\" x2=\"%d\" y2=\"%d\" stroke=\"%s\" stroke-width=\"1.4\"%s/>\n", x1, y1, x2, y2, color, dashes ? " stroke-dasharray=\"5 3\"" : ""
    length_of = sqrt((x2 - x1) * (x2 - x1) + (y2 - y1) * (y2 - y1))
    if (length_of == 0) return
    dx = (x2 - x1) / length_of; dy = (y2 - y1) / length_of
    printf "<polygon points=\"%.1f,%.1f %.1f,%.1f %.1f,%.1f\" fill=\"%s\"/>\n", x2, y2, x2 - 9 * dx + 4 * dy, y2 - 9 * dy - 4 * dx, x2 - 9 * dx - 4 * dy, y2 - 9 * dy + 4 * dx, color
}

function write_lost(x1, y1, x2, y2) {
    printf "<line x1=\"%d\" y1=\"%d\" x2=\"%d\" y2=\"%d\" stroke=\"#b03a2e\" stroke-width=\"1.4\"/>\n", x1, y1, x2, y2
    printf "<path d=\"M %d %d l 10 10 m 0 -10 l -10 10\" stroke=\"#b03a2e\" stroke-width=\"2\"/>\n", x2 - 5, y2 - 5
}

# which way a packet goes that comes to nobody: to its destination's lane, or to the next one where it is a group
function toward(from, to) {
    if (to in lane) return x_of(to)
    return lane[from] + 1 < lanes ? x_of(from) + 430 : x_of(from) - 430
}

function draw_packets(    i, number, from, way, seen) {
    for (i = 0; i < arrivals; i++) {
        number = arrival_packet[i]; from = sent_from[number]
        way = x_of(arrival_member[i]) > x_of(from) ? -9 : 9
        write_line(x_of(from) - way, y_of(sent_row[number]), x_of(arrival_member[i]) + way, y_of(arrival_row[i]), "#2f4a6b", seen[number " " arrival_member[i]]++)
    }
    for (i = 0; i < packets; i++) {
        number = packet_number[i]; from = sent_from[number]
        way = toward(from, sent_to[number]) > x_of(from) ? 9 : -9
        if (!arrived[number]) {
            if (sent_to[number] in kind || sent_to[number] >= "8000") write_lost(x_of(from) + way, y_of(sent_row[number]), (x_of(from) + toward(from, sent_to[number])) / 2, y_of(sent_row[number]))
            else write_line(x_of(from) + way, y_of(sent_row[number]), toward(from, sent_to[number]) - way, y_of(sent_row[number]), "#8aa0b8", 0)
        }
        write_text(x_of(from) + 1.6 * way, y_of(sent_row[number]) - 4, 11, "#222222", way > 0 ? "start" : "end", "#" number " " short(sent_text[number]))
    }
}

function draw_lanes(    i, member) {
    for (i = 0; i < lanes; i++) {
        member = lane_name[i]
        printf "<line x1=\"%d\" y1=\"48\" x2=\"%d\" y2=\"%d\" stroke=\"#c8c8c8\"/>\n", x_of(member), x_of(member), y_of(rows + 1)
        write_text(x_of(member), 28, 15, "#111111", "middle", member)
        write_text(x_of(member), 43, 11, "#666666", "middle", (member in kind) ? kind[member] (group[member] > "0000" && kind[member] != "distributor" ? " in " group[member] : "") : "a stranger")
    }
    for (i = 0; i < bars; i++) {
        member = bar_member[i]
        printf "<rect x=\"%d\" y=\"%d\" width=\"10\" height=\"%d\" fill=\"%s\"/>\n", x_of(member) - 5, y_of(bar_start[i]), 26 * ((i in bar_end ? bar_end[i] : rows + 1) - bar_start[i]), colors[bar_phase[i] + 1]
        write_text(x_of(member) + 12, y_of(bar_start[i]) + 15, 10, colors[bar_phase[i] + 1], "start", bar_text[i])
    }
    for (i = 0; i < marks; i++) {
        printf "<circle cx=\"%d\" cy=\"%d\" r=\"5\" fill=\"white\" stroke=\"%s\" stroke-width=\"2\"/>\n", x_of(mark_member[i]), y_of(mark_row[i]), mark_color[i]
        write_text(x_of(mark_member[i]) + 12, y_of(mark_row[i]) + 4, 10, mark_color[i], "start", mark_text[i])
    }
}

function draw() {
    order_lanes()
    printf "<svg xmlns=\"http://www.w3.org/2000/svg\" width=\"%d\" height=\"%d\" font-family=\"sans-serif\">\n", 430 * lanes + 20, y_of(rows + 2)
    print "<rect width=\"100%\" height=\"100%\" fill=\"white\"/>"
    draw_lanes()
    draw_packets()
    print "</svg>"
}
