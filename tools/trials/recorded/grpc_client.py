"""gRPC's own xDS client as a program: it calls xds:///NAME again and again, and says on standard output how each call ended.

Its bootstrap is in GRPC_XDS_BOOTSTRAP_CONFIG. It ends where standard input does.
"""
import sys
import threading
import time

import grpc


def main(target):
    ended = threading.Event()
    threading.Thread(target=lambda: (sys.stdin.read(), ended.set()), daemon=True).start()
    channel = grpc.insecure_channel(f'xds:///{target}', [('grpc.enable_http_proxy', 0)])
    call = channel.unary_unary('/trial/Echo')
    while not ended.is_set():
        try:
            print(call(b'hello', timeout=2, wait_for_ready=False).decode(), flush=True)
        except grpc.RpcError as error:
            print(f'{error.code().name}: {error.details()}', flush=True)
        time.sleep(0.1)
    channel.close()


main(sys.argv[1])
