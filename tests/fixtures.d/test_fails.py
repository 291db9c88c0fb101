import urllib.request


def test_fails(etcd):
    etcd.at(5)
    urllib.request.urlopen(etcd.address + '/v3/kv/put', b'{"key":"YQ=="}').close()
    assert etcd.trim() == 2
