"""The kit's command rt as a module, for what none of its commands does."""
import importlib.machinery, importlib.util, os, shutil


def rt():
    """Loads rt."""
    loader = importlib.machinery.SourceFileLoader("rt", os.path.realpath(shutil.which("rt")))
    module = importlib.util.module_from_spec(importlib.util.spec_from_loader(loader.name, loader))
    loader.exec_module(module)
    module.rtlib.Crate = module.Crate
    return module


def crates(module, folder):
    """The crates of a folder by their names, lowest first, as rt knows them. Changes nothing."""
    return {it.name: it for it in module.rtlib.crates_below(folder)}
