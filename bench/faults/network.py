"""A network between trains and centres that cuts, delays and chops by lot, and notes the bytes of each connection."""

import asyncio
import random
import threading


class Connection:
    """The bytes of a connection that a train has opened to a centre."""

    def __init__(self, endpoint):
        self.endpoint, self.from_client, self.from_centre = endpoint, bytearray(), bytearray()


class Network:
    """Listens at `first` and the ports after it, and carries to the centres at `centres` and the ports after it."""

    def __init__(self, first, centres, count, seed, cuts):
        self.first, self.centres, self.count, self.cuts = first, centres, count, cuts
        self.lots, self.connections = random.Random(seed), []
        self.cut, self.loop = 0, asyncio.new_event_loop()
        self.thread = threading.Thread(target=self.run, daemon=True)
        self.ready = threading.Event()
        self.thread.start()
        self.ready.wait()

    def run(self):
        asyncio.set_event_loop(self.loop)
        # a connection that is ended with the network is not a fault
        self.loop.set_exception_handler(lambda *_: None)
        self.loop.run_until_complete(self.listen())
        self.ready.set()
        self.loop.run_forever()

    async def listen(self):
        self.servers = [await asyncio.start_server(self.carrier(it), "127.0.0.1", self.first + it) for it in range(self.count + 1)]

    def carrier(self, endpoint):
        async def carry(reader, writer):
            # the last endpoint is that of the interlocking, whose connection is only chopped
            budget = None
            if endpoint < self.count and self.lots.random() < self.cuts:
                budget = [self.lots.randrange(1, 400)]
            try:
                there, back = await asyncio.open_connection("127.0.0.1", self.centres + endpoint)
            except OSError:
                writer.close()
                return
            it = Connection(endpoint)
            self.connections.append(it)
            ways = (self.pipe(reader, back, it.from_client, budget), self.pipe(there, writer, it.from_centre, budget))
            tasks = [asyncio.ensure_future(way) for way in ways]
            await asyncio.wait(tasks, return_when=asyncio.FIRST_COMPLETED)
            # half a second for the other way: a centre may still answer after the end of a train's bytes
            await asyncio.wait(tasks, timeout=0.5)
            for task in tasks:
                task.cancel()
            for end in (writer, back):
                end.close()

        return carry

    async def pipe(self, reader, writer, noted, budget):
        """Carries one way, until an end or a cut. Bytes are noted as they arrive here."""
        try:
            while True:
                piece = await reader.read(self.lots.choice((1, 7, 40, 4096)))
                if not piece:
                    return
                noted += piece
                if budget:
                    budget[0] -= len(piece)
                    if budget[0] <= 0:
                        self.cut += 1
                        return
                if self.lots.random() < 0.1:
                    await asyncio.sleep(self.lots.uniform(0, 0.03))
                writer.write(piece)
                await writer.drain()
        except (OSError, asyncio.CancelledError):
            return

    def end(self):
        async def close():
            for it in self.servers:
                it.close()
            for it in asyncio.all_tasks() - {asyncio.current_task()}:
                it.cancel()

        asyncio.run_coroutine_threadsafe(close(), self.loop).result()
        self.loop.call_soon_threadsafe(self.loop.stop)
        self.thread.join()
