"""A broker of ActiveMQ in a folder, which is made, started, killed and stopped as the servers of databases are."""

import signal
import socket

from servers import Server, free_port


#: What Java is started with that won't run for long: its start is most of what it does.
QUICK = ["-Xmx256m", "-XX:TieredStopAtLevel=1", "-XX:+UseSerialGC"]


class BrokerServer(Server):
    """A broker, which listens on a port of TCP from the start."""

    STOP = signal.SIGTERM

    def __init__(self, home, name, path):
        self.path = path
        self.port = free_port()
        super().__init__(home, name)

    def make(self):
        """Its store is made by its first start."""

    def words(self):
        return ["java", *QUICK, "-cp", ":".join(self.path), "Broker", self.home, str(self.port)]

    def answers(self):
        """It listens once its store is recovered."""
        with socket.socket() as it:
            return it.connect_ex(("127.0.0.1", self.port)) == 0

    def url(self):
        """What a client is given for it. No message is fetched before it is asked for: an idle consumer would keep it from others. And
        none goes to the queue of dead letters, however often it is rolled back."""
        policies = "jms.prefetchPolicy.all=0&jms.redeliveryPolicy.maximumRedeliveries=-1&jms.redeliveryPolicy.initialRedeliveryDelay=0"
        return f"tcp://127.0.0.1:{self.port}?{policies}&soTimeout=20000&wireFormat.maxInactivityDuration=10000"

