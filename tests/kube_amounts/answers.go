// SPDX-License-Identifier: Apache-2.0
// What kube-scheduler takes pods and nodes for: of each JSON object on standard input, one a line,
// a line on standard output with what a Pod counts on its node, in thousandths of a core and bytes,
// or what a Node has, in these and pods. Of an object that isn't read the line is "refused" and
// why.
//
// It is built within the source of Kubernetes 1.20.2 (tests/kube_amounts/run).
package main

import (
	"bufio"
	"fmt"
	"os"
	"strings"

	"k8s.io/api/core/v1"
	"k8s.io/client-go/kubernetes/scheme"
	defaults "k8s.io/kubernetes/pkg/apis/core/v1"
	"k8s.io/kubernetes/pkg/scheduler/framework"
)

// A pod's request is what the API server's defaults make of it, and what the scheduler's cache adds
// to its node.
func answer(line []byte) string {
	object, _, err := scheme.Codecs.UniversalDeserializer().Decode(line, nil, nil)
	if err != nil {
		return "refused " + strings.ReplaceAll(err.Error(), "\n", " ")
	}
	switch it := object.(type) {
	case *v1.Pod:
		defaults.SetObjectDefaults_Pod(it)
		counted := framework.NewNodeInfo(it).Requested
		return fmt.Sprint(counted.MilliCPU, counted.Memory)
	case *v1.Node:
		defaults.SetObjectDefaults_Node(it)
		info := framework.NewNodeInfo()
		if err := info.SetNode(it); err != nil {
			return "refused " + err.Error()
		}
		return fmt.Sprint(info.Allocatable.MilliCPU, info.Allocatable.Memory, info.Allocatable.AllowedPodNumber)
	}
	return fmt.Sprintf("refused %T", object)
}

func main() {
	lines := bufio.NewScanner(os.Stdin)
	lines.Buffer(nil, 1<<22)
	out := bufio.NewWriter(os.Stdout)
	for lines.Scan() {
		fmt.Fprintln(out, answer(lines.Bytes()))
	}
	if err := lines.Err(); err != nil {
		panic(err)
	}
	if err := out.Flush(); err != nil {
		panic(err)
	}
}
