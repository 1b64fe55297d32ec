"""An image of Ceph as an NBD server of nbdkit, for a machine without the kernel's rbd: what `rbd map --exclusive` does. The
image's exclusive lock is taken before anything is served, and never handed over on request.

usage: nbdkit python rbd-exclusive.py image=POOL/NAME [conf=FILE] [id=USER]

This makes the image the file FILE; below it the same by qemu, which can't keep the lock to itself:
  nbdkit --unix SOCKET python rbd-exclusive.py image=rbd/some
  nbdfuse FILE 'nbd+unix:///?socket=SOCKET'

  qemu-storage-daemon --blockdev driver=rbd,node-name=image,pool=rbd,image=some,cache.direct=on \\
      --export type=fuse,id=file,node-name=image,writable=on,mountpoint=FILE

It needs Debian's nbdkit-plugin-python, python3-rados and python3-rbd. The Python within nbdkit looks for its modules beside
the first python3 of the PATH.
"""
import errno

import nbdkit
import rados
import rbd

API_VERSION = 2
options = {"id": "admin"}
cluster = pool = image = None


def thread_model():
    return nbdkit.THREAD_MODEL_SERIALIZE_ALL_REQUESTS


def config(key, value):
    options[key] = value


def config_complete():
    if "/" not in options.get("image", ""):
        raise ValueError("image=POOL/NAME is needed")


def after_fork():
    global cluster, pool, image
    pool_name, name = options["image"].split("/", 1)
    cluster = rados.Rados(conffile=options.get("conf", rados.Rados.DEFAULT_CONF_FILES), rados_id=options["id"])
    # With librbd's cache a write and a sync may succeed although a fence made the write fail.
    cluster.conf_set("rbd_cache", "false")
    cluster.connect()
    pool = cluster.open_ioctx(pool_name)
    image = rbd.Image(pool, name)
    image.lock_acquire(rbd.RBD_LOCK_MODE_EXCLUSIVE)


def cleanup():
    if image is not None:
        image.close()
        pool.close()
        cluster.shutdown()


def open(readonly):
    return 1


def get_size(handle):
    return image.size()


def can_flush(handle):
    return True


def attempt(request, *words):
    try:
        return request(*words)
    except Exception:
        nbdkit.set_error(errno.EIO)
        raise


def pread(handle, buffer, offset, flags):
    buffer[:] = attempt(image.read, offset, len(buffer))


def pwrite(handle, buffer, offset, flags):
    attempt(image.write, bytes(buffer), offset)


def flush(handle, flags):
    attempt(image.flush)
