package etcdone_test

import (
	"testing"

	"etcdone"
)

func TestFails(t *testing.T) {
	etcd := etcdone.Start(t)
	etcd.At(5)
	ask(t, etcd, "kv/put", fields{"key": lock})
	if kept := etcd.Trim(); kept != 2 {
		t.Fatalf("kept: %d", kept)
	}
}
