"""`python3 -m fbsim.page` is fbsim-page."""

from fbsim.extras import make_page

if __name__ == "__main__":
    raise SystemExit(make_page())
