"""The page's own files, and what guards each answer of the server."""

import importlib.resources

from aiohttp import web

# What each answer has beside it: nothing but the page's own files is loaded, no other page frames it, and no other learns its address.
GUARDS = {
    "Content-Security-Policy": "default-src 'none'; script-src 'self'; style-src 'self'; img-src 'self' data:; connect-src 'self'; "
                               "base-uri 'none'; form-action 'none'; frame-ancestors 'none'",
    "Cache-Control": "no-store",
    "Referrer-Policy": "no-referrer",
    "X-Content-Type-Options": "nosniff",
    "Cross-Origin-Resource-Policy": "same-origin",
    "X-Frame-Options": "DENY",
}
TYPES = {"html": "text/html", "css": "text/css", "js": "text/javascript", "json": "application/json"}


async def guard(request: web.Request, response: web.StreamResponse) -> None:
    """Gives an answer its guards, a refusal too."""
    response.headers.update(GUARDS)


FOLDER = importlib.resources.files("stabsim.page") / "static"


def file_response(name: str) -> web.Response:
    """A file of the page, by a name without folders."""
    kind = TYPES.get(name.rpartition(".")[2])
    if kind is None or "/" in name or "\\" in name or not (FOLDER / name).is_file():
        raise web.HTTPNotFound(text="no such file\n")
    return web.Response(body=(FOLDER / name).read_bytes(), content_type=kind, charset="utf-8")


def page_response() -> web.Response:
    """The page itself. It names all its modules, so that the browser loads them at once and not one after another."""
    modules = sorted(file.name for file in FOLDER.iterdir() if file.name.endswith(".js"))
    links = "\n".join(f'<link rel="modulepreload" href="/static/{name}">' for name in modules)
    text = (FOLDER / "index.html").read_text(encoding="utf-8").replace("<!-- modules -->", links)
    return web.Response(text=text, content_type="text/html")
