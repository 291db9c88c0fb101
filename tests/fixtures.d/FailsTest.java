import static org.junit.jupiter.api.Assertions.assertEquals;

import java.net.URI;
import java.net.http.HttpClient;
import java.net.http.HttpRequest;
import java.net.http.HttpResponse.BodyHandlers;
import org.junit.jupiter.api.Test;
import org.junit.jupiter.api.extension.RegisterExtension;

class FailsTest {
    @RegisterExtension final EtcdOne etcd = new EtcdOne();

    @Test
    void fails() throws Exception {
        etcd.at(5);
        HttpRequest put = HttpRequest.newBuilder(URI.create(etcd.address() + "/v3/kv/put")).POST(HttpRequest.BodyPublishers.ofString("{\"key\":\"YQ==\"}")).build();
        HttpClient.newHttpClient().send(put, BodyHandlers.ofString());
        assertEquals(2, etcd.trim());
    }
}
