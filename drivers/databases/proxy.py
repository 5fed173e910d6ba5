"""A network between a driver and a server that can go silent: it takes connections and what is sent on them, and passes nothing on."""

import selectors
import socket
import threading


class Proxy:
    """Passes what comes on a port of TCP on to a socket, and back, until it is silent."""

    def __init__(self, path):
        self._path = path
        self._listener = socket.create_server(("127.0.0.1", 0))
        self.port = self._listener.getsockname()[1]
        self._is_silent = threading.Event()
        self._pairs = []
        threading.Thread(target=self._accept, daemon=True).start()

    def silence(self):
        """From now on nothing is passed on."""
        self._is_silent.set()

    def speak(self):
        """New connections are passed on again. Those from before stay silent, as after a network's fault they may for hours."""
        self._is_silent = threading.Event()

    def close(self):
        self._listener.close()
        for pair in self._pairs:
            for end in pair:
                end.close()

    def _accept(self):
        while True:
            try:
                client, _ = self._listener.accept()
            except OSError:
                return
            server = socket.socket(socket.AF_UNIX)
            self._pairs.append((client, server))
            if not self._is_silent.is_set():
                server.connect(self._path)
                threading.Thread(target=self._pass_on, args=[client, server, self._is_silent], daemon=True).start()

    @staticmethod
    def _pass_on(client, server, is_silent):
        with selectors.DefaultSelector() as ends:
            ends.register(client, selectors.EVENT_READ, server)
            ends.register(server, selectors.EVENT_READ, client)
            while True:
                for key, _ in ends.select():
                    try:
                        some = key.fileobj.recv(65536)
                        if is_silent.is_set():
                            return
                        if not some:
                            client.close()
                            server.close()
                            return
                        key.data.sendall(some)
                    except OSError:
                        return
