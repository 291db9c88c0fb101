// A server of its own, two puts, a list of their prefix, and a watch of it: java Client.java
import java.io.BufferedReader;
import java.net.URI;
import java.net.http.HttpClient;
import java.net.http.HttpRequest;
import java.net.http.HttpResponse.BodyHandlers;
import java.util.Base64;
import java.util.regex.Pattern;

class Client {
    static final HttpClient CLIENT = HttpClient.newBuilder().version(HttpClient.Version.HTTP_1_1).build();

    static String b64(String text) {
        return Base64.getEncoder().encodeToString(text.getBytes());
    }

    static HttpRequest post(String address, String path, String body) {
        return HttpRequest.newBuilder(URI.create("http://" + address + "/v3/" + path))
            .POST(HttpRequest.BodyPublishers.ofString(body)).build();
    }

    static String text(String code) {
        return new String(Base64.getDecoder().decode(code));
    }

    /** The keys and values of an answer. Where a JSON library is at hand, use that. */
    static String all(String answer) {
        StringBuilder found = new StringBuilder();
        Pattern.compile("\"key\":\"([^\"]*)\"[^}]*\"value\":\"([^\"]*)\"").matcher(answer).results()
            .forEach(kv -> found.append(' ').append(text(kv.group(1))).append('=').append(text(kv.group(2))));
        return found.toString();
    }

    public static void main(String[] words) throws Exception {
        String program = System.getenv().getOrDefault("ETCD_ONE", "./etcd_one");
        Process server = new ProcessBuilder(program, "serve", "--listen", "127.0.0.1:0").start();
        try (BufferedReader lines = server.errorReader()) {
            String said = lines.readLine();
            while (said != null && !said.startsWith("listening on ")) said = lines.readLine();
            String address = said.substring("listening on ".length());
            for (String[] job : new String[][] {{"/jobs/a", "one"}, {"/jobs/b", "two"}}) {
                String body = "{\"key\":\"" + b64(job[0]) + "\",\"value\":\"" + b64(job[1]) + "\"}";
                CLIENT.send(post(address, "kv/put", body), BodyHandlers.ofString());
            }
            // The end of a prefix is its last byte, one more.
            String jobs = "\"key\":\"" + b64("/jobs/") + "\",\"range_end\":\"" + b64("/jobs0") + "\"";
            String told = CLIENT.send(post(address, "kv/range", "{" + jobs + "}"), BodyHandlers.ofString()).body();
            System.out.println("listed" + all(told));
            // Each line of a watch's answer is a message: the first says that it was made.
            String asked = "{\"create_request\":{" + jobs + ",\"start_revision\":\"2\"}}";
            try (var messages = CLIENT.send(post(address, "watch", asked), BodyHandlers.ofLines()).body()) {
                System.out.println("watched" + all(messages.skip(1).findFirst().orElse("")));
            }
        } finally {
            server.destroy();
            server.waitFor();
        }
    }
}
