# SPDX-License-Identifier: Apache-2.0
# Tells what pods ask of nodes' labels as the rule node_affinity reads it, in what kubectl tells of
# a cluster, for `wsched translate`:
#
#   kubectl get nodes,pods,pv,pvc --all-namespaces -o json | jq -c -f examples/node-affinity.jq |
#       wsched translate --labels none > cluster.jsonl
#
# --labels names the labels that other rules read; `none` stands there where none does. Without it a
# pod with more labels than a row has room for, these entries among them, is left out; with it the
# entries are told first, since `/` sorts before all that a label of the API may begin with.
# Each node and each pod is one line.
# Of each pod without a node, its node selector, its node affinity and its claims are taken away,
# and stand among its labels as the entries of docs/NODE-AFFINITY.md. Of a node with more than 32
# labels those stay that some pod asks for. A pod whose demands pass the limits there is left as it
# is, so that `translate` leaves it out, and why is said on standard error. A script that was made
# so is run by `node_affinity:WEIGHT:500000:examples/plugins/node_affinity.wasm`.
#
# Tried with jq 1.6: tests/affinity/spelled compares it with state/affinity.py of the second scheduler.

# Says something on standard error, and answers nothing.
def say: debug | empty;

# What Kubernetes takes as a label's value, and as a number.
def is_value: test("^([A-Za-z0-9]([A-Za-z0-9_.-]{0,61}[A-Za-z0-9])?)?$");
def without_zeros: sub("^0+(?<rest>[0-9])"; .rest);
def is_number: test("^[0-9]{1,63}$") and (without_zeros | length < 19 or (length == 19 and . <= "9223372036854775807"));
def each_once: reduce .[] as $it ([]; if any(.[]; . == $it) then . else . + [$it] end);

# A requirement, [WHERE, OPERATOR, VALUES], and null where Kubernetes makes no selector of it.
def expression:
  (.values // []) as $values
  | if .operator | IN("In", "NotIn") then if $values != [] and all($values[]; is_value) then ["/\(.key)", .operator, ($values | each_once)] else null end
    elif .operator | IN("Gt", "Lt") then if ($values | length) == 1 and ($values[0] | is_number) then ["/\(.key)", .operator, [$values[0] | without_zeros]] else null end
    elif (.operator | IN("Exists", "DoesNotExist")) and $values == [] then ["/\(.key)", .operator, []]
    else null end;
def field:
  (.values // []) as $values
  | if .key != "metadata.name" or (.operator | IN("In", "NotIn") | not) or ($values | length) != 1 then null
    elif $values[0] | test("^[A-Za-z0-9._-]{1,63}$") | not then error("a node's name that no script can say, \($values[0][:80])")
    else [".metadata.name", .operator, $values] end;
# A term's requirements; null where it has one that can't be read.
def term: [(.matchExpressions // [] | .[] | expression), (.matchFields // [] | .[] | field)] | if any(.[]; . == null) then null else . end;
# The terms that may match a node.
def terms: [.nodeSelectorTerms // [] | .[] | term | select(. != null and . != [])];

# The volumes of a pod's claims.
def places:
  .metadata.labels // {} as $labels
  | (("topology.kubernetes.io/zone", "topology.kubernetes.io/region", "failure-domain.beta.kubernetes.io/zone", "failure-domain.beta.kubernetes.io/region")
      | select($labels[.]) | [[["/\(.)", "In", ($labels[.] | split("__") | each_once)]]]),
    (.spec.nodeAffinity.required | select(. != null) | terms);
def claim_of($pod): .persistentVolumeClaim.claimName // (select(.ephemeral) | "\($pod.metadata.name)-\(.name)");
def claimed($claims; $volumes):
  . as $pod
  | .spec.volumes // [] | .[]
  | "volume \(.name): the claim \(claim_of($pod))" as $what
  | .ephemeral as $ephemeral
  | $claims["\($pod.metadata.namespace // "default")/\(claim_of($pod))"]
  | if . == null then error("\($what) isn't there")
    elif $ephemeral and ([.metadata.ownerReferences // [] | .[] | select(.controller and .uid == $pod.metadata.uid)] == []) then error("\($what) isn't its own")
    elif .metadata.deletionTimestamp then error("\($what) is being deleted")
    elif .spec.accessModes // [] | any(.[]; . == "ReadWriteOncePod") then error("\($what) is for one pod at a time")
    elif (.spec.volumeName // "") == "" or (.metadata.annotations // {} | has("pv.kubernetes.io/bind-completed") | not) then error("\($what) isn't bound yet")
    elif $volumes[.spec.volumeName] == null then error("\($what) is bound to \(.spec.volumeName), which isn't there")
    else $volumes[.spec.volumeName] | places end;

# The parts, [WORD, VALUE, REQUIREMENTS].
def required($claims; $volumes):
  [ [[.spec.nodeSelector // {} | to_entries | sort_by(.key)[] | ["/\(.key)", "In", [.value]]]],
    claimed($claims; $volumes),
    (.spec.affinity.nodeAffinity.requiredDuringSchedulingIgnoredDuringExecution | select(. != null) | terms) ]
  | [ ["", "", ([.[] | select(length == 1) | .[0][]] | each_once)],
      ( .[] | if length == 0 then ["either", "", []]
              elif length > 1 then to_entries[] | [(if .key == 0 then "either" else "or" end), "", .value]
              else empty end ) ];
def preferred:
  [ .spec.affinity.nodeAffinity.preferredDuringSchedulingIgnoredDuringExecution // [] | .[]
    | [(.weight | tostring), (.preference | term)]
    | if .[1] == null then error("preferred node affinity with a value that no label has") else . end
    | select(.[0] != "0" and .[1] != []) | ["prefer", .[0], .[1]] ];

# The entries.
def texts: reduce .[2][] as $value ([.[1]]; if (.[-1] | length) + 1 + ($value | length) <= 63 then .[-1] += "/\($value)" else . + [$value] end);
def spelled:
  [ .[] | (select(.[0] != "") | [".\(.[0])", .[1]]),
          ( .[2][] | if .[0] | length > 60 then error("a node label with a key of more than 59 bytes, \(.[0][1:])") else . end
            | .[0] as $where | texts | to_entries[] | [(if .key == 0 then $where else ".more" end), .value] ) ]
  | if length > 32 then error("node selectors and affinity of \(length) entries, and there is room for 32") else . end
  | to_entries | map({key: "/\(.key / 10 | floor)\(.key % 10)\(.value[0])", value: .value[1]}) | from_entries;
def keys_of: [.[][2][][0] | select(startswith("/")) | .[1:]] | unique;

# What a pod asks for; {why} where it can't be told. It can do without what it only prefers.
def asked($claims; $volumes):
  try ( preferred as $wishes
        | required($claims; $volumes) as $parts
        | ($parts | spelled) as $entries
        | try {entries: ($parts + $wishes | spelled), keys: ($parts + $wishes | keys_of), all: true}
          catch {entries: $entries, keys: ($parts | keys_of), all: false} )
  catch {why: .};

def full_name: "\(.metadata.namespace // "default")/\(.metadata.name)";
# The pod as it is told.
def told($asked):
  . as $pod
  | .metadata.labels = (.metadata.labels // {}) + $asked.entries
  | del(.spec.nodeSelector, .spec.affinity.nodeAffinity.requiredDuringSchedulingIgnoredDuringExecution)
  | if $asked.all then del(.spec.affinity.nodeAffinity) else . end
  | if .spec.volumes then .spec.volumes |= map(select([claim_of($pod)] == [])) else . end;

def of_kind($kind): .items[] | select(.kind == $kind);

(reduce of_kind("PersistentVolumeClaim") as $it ({}; .[$it | full_name] = $it)) as $claims
| (reduce of_kind("PersistentVolume") as $it ({}; .[$it.metadata.name] = $it)) as $volumes
| (reduce (of_kind("Pod") | select(.spec.nodeName // "" | . == "")) as $pod ({keys: [], told: {}};
      ($pod | asked($claims; $volumes)) as $asked
      | (.keys + ($asked.keys // []) | unique) as $keys
      | if $asked.why then .told[$pod | full_name] = $asked
        elif $keys | length > 32 then .told[$pod | full_name] = {why: "other pods ask for so many node labels that there is no room for \($asked.keys - .keys | join(", "))"}
        else .keys = $keys | .told[$pod | full_name] = $asked end)) as $all
| .items[]
| if .kind == "Pod" and (.spec.nodeName // "" | . == "") then
    full_name as $name
    | $all.told[$name] as $asked
    | if $asked.why then ("left out: pod \($name): \($asked.why)" | say), . else told($asked) end
  elif .kind == "Node" and (.metadata.labels // {} | length > 32) then
    .metadata.name as $name
    | (.metadata.labels | to_entries | sort_by([(.key as $key | any($all.keys[]; . == $key) | not), .key])) as $labels
    | ($labels[32:][] | "left out of node \($name): label \(.key)" | say), (.metadata.labels = ($labels[:32] | from_entries))
  elif .kind | IN("Node", "Pod") then .
  else empty end
