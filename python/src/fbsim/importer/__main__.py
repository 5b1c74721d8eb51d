"""`python3 -m fbsim.importer` is fbsim-import."""

from fbsim.extras import import_files

if __name__ == "__main__":
    raise SystemExit(import_files())
