import java.io.IOException;
import java.net.InetAddress;
import java.nio.channels.spi.SelectorProvider;
import javax.servlet.http.HttpServletRequest;
import javax.servlet.http.HttpServletResponse;
import org.eclipse.jetty.server.Request;
import org.eclipse.jetty.server.Server;
import org.eclipse.jetty.server.ServerConnector;
import org.eclipse.jetty.server.handler.AbstractHandler;

/** An HTTP server of Jetty, with two selectors. It answers {@code /N} with {@code Body.of(N)}. */
public class JettyServer {
    public static void main(String[] words) throws Exception {
        Server server = new Server();
        ServerConnector connector = new ServerConnector(server, 1, 2);
        connector.setHost(InetAddress.getLoopbackAddress().getHostAddress());
        server.addConnector(connector);
        server.setHandler(new AbstractHandler() {
            @Override
            public void handle(String target, Request base, HttpServletRequest request, HttpServletResponse response)
                    throws IOException {
                byte[] body = Body.of(Integer.parseInt(target.substring(1)));
                response.setContentLength(body.length);
                response.getOutputStream().write(body);
                base.setHandled(true);
            }
        });
        server.start();
        int port = connector.getLocalPort();
        System.out.println("port " + port + ", selectors of " + SelectorProvider.provider().getClass().getName());
    }
}
