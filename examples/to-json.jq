# SPDX-License-Identifier: Apache-2.0
# Turns what `wsched run`, `explain` or `storm` writes into JSON, one object a line, for whoever
# wants to go on with it:
#
#   wsched run < cluster.jsonl | jq -R -c -f examples/to-json.jq
#
# "line" says what the line is: ok, refused, idle, placed, unschedulable, error, lost, node, places,
# queue, clock or audit; and verdict for what `explain` says of one node, before the cycle's line.
# Amounts are numbers: thousandths of a core, bytes, pods. docs/FORMATS.md has the lines. A uid may
# be any word, `refused` too, so a line is known by its shape.

def numbers: map_values(tonumber);
def amount: split("/") | {used: (.[0] | tonumber), of: (.[1] | tonumber)};

# What a plugin's call came to, where it gave no verdict.
def cause:
  split(" ")
  | if .[0] == "trap" then {cause: "trap", number: (.[1] | tonumber), name: .[2]}
    elif .[0] == "exhausted" then {cause: "exhausted"}
    else {cause: .[0], value: (.[1] | tonumber)} end;

# What was decided of a node: its total with what that is the sum of, the plugin that rejects it or
# says nothing, or the filter that rejects it, with the taint, or with what is asked for and what is
# free.
def verdict:
  if test("^total ") then
    split(" ")
    | {total: (.[1] | tonumber), fit: (.[3] | tonumber), taints: (.[5] | tonumber),
       plugins: [range(6; length; 3) as $k | {name: .[$k], weight: (.[$k + 1] | tonumber), score: (.[$k + 2] | tonumber)}]}
  elif test("^taint ") then {rejected: "taint", taint: ltrimstr("taint ")}
  elif test("^(cpu|memory|pods) [0-9]+ of [0-9]+$") then split(" ") | {rejected: .[0], asked: (.[1] | tonumber), free: (.[3] | tonumber)}
  elif test("^plugin [^ ]+ [23]$") then capture("^plugin (?<plugin>[^ ]+) (?<code>[23])$") | {rejected: "plugin", plugin, code: (.code | tonumber)}
  elif test("^error plugin ") then capture("^error plugin (?<plugin>[^ ]+) (?<why>.*)$") | {plugin, error: (.why | cause)}
  else {rejected: .} end;

if . == "ok" or . == "idle" then {line: .}
elif test("^  [^ ]+ (total|marked|taint|cpu|memory|pods|plugin|error)") then
  capture("^  (?<node>[^ ]+) (?<verdict>.*)$") | {line: "verdict", node} + (.verdict | verdict)
elif test("^refused [0-9]+ [A-Za-z]+$") then capture("^refused (?<number>[0-9]+) (?<name>.*)$") | {line: "refused", number: (.number | tonumber), name}
elif test("^[^ ]+ on [^ ]+ total [0-9]+ ticket [0-9]+$") then
  capture("^(?<uid>[^ ]+) on (?<node>[^ ]+) total (?<total>[0-9]+) ticket (?<ticket>[0-9]+)$")
  | {line: "placed", uid, node, total: (.total | tonumber), ticket: (.ticket | tonumber)}
elif test("^[^ ]+ unschedulable marked ") then
  capture("^(?<uid>[^ ]+) unschedulable marked (?<marked>[0-9]+) taint (?<taint>[0-9]+) cpu (?<cpu>[0-9]+) memory (?<memory>[0-9]+) pods (?<pods>[0-9]+) plugin (?<plugin>[0-9]+) final (?<final>[0-9]+)$")
  | {line: "unschedulable", uid, rejected: (del(.uid) | numbers)}
elif test("^[^ ]+ error plugin ") then
  capture("^(?<uid>[^ ]+) error plugin (?<plugin>[^ ]+) node (?<node>[^ ]+) (?<why>.*)$")
  | {line: "error", uid, plugin, node} + (.why | cause)
elif test("^[^ ]+ lost [0-9]+ [A-Za-z]+$") then
  capture("^(?<uid>[^ ]+) lost (?<number>[0-9]+) (?<name>.*)$") | {line: "lost", uid, number: (.number | tonumber), name}
elif test("^node [^ ]+ cpu ") then
  capture("^node (?<name>[^ ]+) cpu (?<cpu>[^ ]+) mem (?<mem>[^ ]+) pods (?<pods>[^ ]+)$")
  | {line: "node", name, cpu: (.cpu | amount), mem: (.mem | amount), pods: (.pods | amount)}
elif test("^places bound ") then capture("^places bound (?<bound>[0-9]+) assumed (?<assumed>[0-9]+)$") | {line: "places"} + numbers
elif test("^queue active ") then
  capture("^queue active (?<active>[0-9]+) backoff (?<backoff>[0-9]+) unschedulable (?<unschedulable>[0-9]+) inflight (?<inflight>[0-9]+)$")
  | {line: "queue"} + numbers
elif test("^clock [0-9]+ version ") then capture("^clock (?<clock>[0-9]+) version (?<version>[0-9]+)$") | {line: "clock"} + numbers
elif test("^audit (ok|failed)$") then {line: "audit", ok: (. == "audit ok")}
else error("no line of wsched: \(.)") end
