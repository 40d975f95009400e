"""Archives whose bytes depend on what is packed alone: names are sorted, and owners, modes and times are given."""
import gzip
import io
import pathlib
import tarfile


def tar_of(tree, front, date, is_executable, empty=()):
    """A tar of the bytes of files by their names, and of empty folders, with each folder before what is in it. Each name has the front
    before it, and each file the mode 755 if `is_executable` holds of its name, else 644. The date is in seconds since 1970."""
    folders = {str(above) for name in tree for above in pathlib.PurePosixPath(name).parents} - {"."} | set(empty)
    packed = io.BytesIO()
    with tarfile.open(fileobj=packed, mode="w", format=tarfile.USTAR_FORMAT) as archive:
        for name in sorted({*folders, *tree}):
            member = tarfile.TarInfo(f"{front}{name}")
            member.mtime = date
            if name in folders:
                member.type, member.mode = tarfile.DIRTYPE, 0o755
                archive.addfile(member)
            else:
                member.size, member.mode = len(tree[name]), 0o755 if is_executable(name) else 0o644
                archive.addfile(member, io.BytesIO(tree[name]))
    return packed.getvalue()


def gzip_of(data):
    """These bytes, compressed, without a name and a time."""
    packed = io.BytesIO()
    with gzip.GzipFile("", "wb", 9, packed, mtime=0) as whole:
        whole.write(data)
    return packed.getvalue()
