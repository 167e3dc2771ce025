// Java's HttpClient: Client MODE URL. Prints the status and the milliseconds of each request, as JSON. MODE: requests or expect.
import java.net.URI;
import java.net.http.HttpClient;
import java.net.http.HttpRequest;
import java.net.http.HttpResponse;
import java.util.ArrayList;
import java.util.List;
import java.util.concurrent.CompletableFuture;

class Client {
    static final HttpClient[] CLIENTS = {newClient(), newClient()};
    static final List<String> FOUND = new ArrayList<>();

    static HttpClient newClient() {
        return HttpClient.newBuilder().version(HttpClient.Version.HTTP_1_1).build();
    }

    static HttpRequest.Builder request(String url) {
        return HttpRequest.newBuilder(URI.create(url)).header("Register-Party", "1").header("Register-Role", "stateAdministrator");
    }

    static CompletableFuture<Void> send(String url, int number) {
        long began = System.nanoTime();
        return CLIENTS[number % 2].sendAsync(request(url).build(), HttpResponse.BodyHandlers.ofString()).thenAccept(reply -> {
            synchronized (FOUND) {
                FOUND.add("[" + reply.statusCode() + ", " + (System.nanoTime() - began) / 1e6 + "]");
            }
        });
    }

    public static void main(String[] words) throws Exception {
        String url = words[1];
        if (words[0].equals("expect")) {
            try {
                var body = HttpRequest.BodyPublishers.ofString("{\"kind\":\"naturalPerson\",\"name\":\"Java\"}");
                var reply = newClient().send(request(url).expectContinue(true).POST(body).build(), HttpResponse.BodyHandlers.ofString());
                System.out.println("status " + reply.statusCode());
            } catch (java.io.IOException error) {
                System.out.println(error.getMessage());
            }
            return;
        }
        // The first requests load the classes of the client.
        for (int number = 0; number < 10; number++) {
            send(url, number).join();
        }
        FOUND.clear();
        for (int number = 0; number < 50; number++) {
            send(url, number).join();
        }
        for (int round = 0; round < 10; round++) {
            var all = new CompletableFuture<?>[5];
            for (int number = 0; number < 5; number++) {
                all[number] = send(url, number);
            }
            CompletableFuture.allOf(all).join();
        }
        System.out.println(FOUND);
    }
}
