// SPDX-License-Identifier: Apache-2.0
// A filter that passes every node, once it has been handed both records: what a call costs that
// reckons nothing.

__attribute__((import_module("sched"), import_name("pod")))
unsigned pod(unsigned char *pointer, unsigned limit);
__attribute__((import_module("sched"), import_name("node")))
unsigned node(unsigned char *pointer, unsigned limit);

static unsigned char pod_record[8192], node_record[8192];

__attribute__((export_name("filter")))
int filter(void) {
    pod(pod_record, sizeof pod_record);
    node(node_record, sizeof node_record);
    return 0;
}
