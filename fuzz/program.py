"""The words that call the program: those of FLUME, or as .ci/examples finds or builds it."""
import importlib.machinery, importlib.util, os, pathlib, pwd, shlex, shutil, sys

top = pathlib.Path(__file__).resolve().parent.parent


def examples_of(clone):
    """The script .ci/examples of a clone as a module, of which nothing is run yet."""
    file = clone / ".ci/examples"
    module = importlib.util.module_from_spec(importlib.machinery.ModuleSpec("examples", None))
    module.__file__ = str(file)
    sys.modules["examples"] = module
    exec(compile(file.read_text().rpartition("\nmain()")[0], module.__file__, "exec"), module.__dict__)
    return module


def words_in(folder):
    """The words that call a copy of the program in the folder."""
    if "FLUME" in os.environ:
        words = shlex.split(os.environ["FLUME"])
        words[-1] = str(shutil.copy(words[-1], folder / "flume"))
    else:
        words = examples_of(top).program_in(folder)
    pathlib.Path(words[-1]).chmod(0o755)
    return words


def become_nobody(folder):
    """As root, goes on as a user who may not read all files."""
    if os.getuid() == 0:
        nobody = pwd.getpwnam("nobody")
        for it in [folder, *folder.rglob("*")]:
            os.chown(it, nobody.pw_uid, nobody.pw_gid)
        os.setgroups([])
        os.setgid(nobody.pw_gid)
        os.setuid(nobody.pw_uid)
