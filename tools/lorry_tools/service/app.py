"""The addresses of the service."""
from __future__ import annotations

import os
import sys
import traceback
from typing import Any, Awaitable, Callable, Literal, Optional, TypeVar

from fastapi import APIRouter, FastAPI, Query, Request
from fastapi.exceptions import RequestValidationError
from fastapi.openapi.utils import get_openapi
from fastapi.responses import FileResponse, Response
from fastapi.staticfiles import StaticFiles
from starlette.exceptions import HTTPException

from lorry_tools import __version__
from lorry_tools.answers import Unexpected
from lorry_tools.places import Ambiguous
from lorry_tools.problems import Problem, Unreadable
from lorry_tools.program import Refused
from lorry_tools.running import TOOLS
from lorry_tools.service import answering, bodies
from lorry_tools.service.copies import Served
from lorry_tools.service.desk import Service
from lorry_tools.service.guards import PROBLEM, json_bytes, problem_of
from lorry_tools.service.limits import Unavailable
from lorry_tools.service.roads import Box
from lorry_tools.service.routes import TripRoute
from lorry_tools.service.schemas import answers, components

PAGES = os.path.join(TOOLS, "lorry_tools", "desk_page")
LEAFLET = "/usr/share/javascript/leaflet"

VERSION = "1"  # of the addresses and their schemas
JSON = "application/json"
GEOJSON = "application/geo+json"
TEXTS = ("text/csv", GEOJSON, "application/gpx+xml")
MOST_PLACES = 50
MOST_ROADS = 20_000
BAD_REQUEST = 7  # docs/COMMANDS.md: the status where the program refuses a request

Handler = TypeVar("Handler", bound=Callable[..., Awaitable[Response]])
Form = Literal["json", "csv", "geojson", "gpx"]
DrawnForm = Literal["json", "csv", "geojson", "gpx", "svg"]

ABOUT = """Questions about trips of lorries under driving bans, answered by the proved program
lorry_plan. Times are local to their places unless they have `Z` or an offset; costs are in
thousandths, of which 1,000 are a minute of driving. The service itself isn't proved: `commands` of
an answer has the commands of the program, FOLDER being the folder's name."""


def problem_response(problem: Problem) -> Response:
    """Returns what a problem is over HTTP."""
    status, line, program_status = 422, None, None
    choices: list[dict[str, Any]] = []
    if isinstance(problem, Unavailable):
        status = problem.http_status
    elif isinstance(problem, Refused):
        status = 422 if problem.status == BAD_REQUEST else 503
        line, program_status = problem.line, problem.status
    elif isinstance(problem, (Unexpected, Unreadable)):
        status = 503
    elif isinstance(problem, Ambiguous):
        choices = [answering.place_value(it) for it in problem.choices[:MOST_PLACES]]
    body = problem_of(status, bodies.in_fields(str(problem)), line, program_status, choices)
    headers = {"Retry-After": "1"} if status == 503 else None
    return Response(body, status, headers, PROBLEM)


def validation_text(error: RequestValidationError) -> str:
    """Says which fields aren't as the schema has them."""
    lines = []
    for found in error.errors():
        place = ".".join(str(it) for it in found["loc"] if it != "__root__")
        lines.append(f"{place}: {found['msg']}")
    return "\n".join(lines)


def add_problems(app: FastAPI) -> None:
    """Answers what goes wrong with problems."""

    @app.exception_handler(Problem)
    async def of_problem(_: Request, problem: Problem) -> Response:
        return problem_response(problem)

    @app.exception_handler(OSError)
    async def of_files(_: Request, error: OSError) -> Response:
        return problem_response(Unavailable(f"a file can't be read or written: {error.strerror}"))

    @app.exception_handler(RequestValidationError)
    async def of_words(_: Request, error: RequestValidationError) -> Response:
        return Response(problem_of(422, validation_text(error)), 422, media_type=PROBLEM)

    @app.exception_handler(HTTPException)
    async def of_http(_: Request, error: HTTPException) -> Response:
        body = problem_of(error.status_code, str(error.detail))
        return Response(body, error.status_code, error.headers, PROBLEM)

    @app.exception_handler(Exception)
    async def of_fault(_: Request, error: Exception) -> Response:
        traceback.print_exception(type(error), error, error.__traceback__, file=sys.stderr)
        return Response(problem_of(500, type(error).__name__), 500, media_type=PROBLEM)


def make_app(service: Service, tiles: Optional[str] = None) -> FastAPI:
    """Returns the application of a service."""
    app = FastAPI(title="lorry_plan", version=VERSION, docs_url=None, redoc_url=None)
    add_problems(app)
    add_trips(app, service)  # (first, as an address is looked for in this order)
    add_folders(app, service, tiles)
    add_pages(app)
    app.add_event_handler("startup", service.start)
    app.add_event_handler("shutdown", service.stop)
    setattr(app, "openapi", lambda: openapi_of(app))
    return app


def served_of(service: Service, name: str) -> Served:
    served = service.folders.get(name)
    if served is None:
        raise HTTPException(404, f"no folder {name!r} is served")
    return served


def reply(version: str, text: bytes, kind: str) -> Response:
    return Response(text, headers={"Folder-Version": version}, media_type=kind)


def add_folders(app: FastAPI, service: Service, tiles: Optional[str]) -> None:
    """Adds the questions about the service and its folders."""
    limits = service.limits

    @app.get("/api/service", summary="the service", responses=answers("service"))
    async def about_service() -> Response:
        names = ("body_bytes", "requests", "runs", "seconds", "memory_mb", "gather_ms")
        shown = {it: getattr(limits, it) for it in names}
        found = {"version": __version__, "tiles": tiles, "limits": shown}
        return Response(json_bytes(found), media_type=JSON)

    @app.get("/api/folders", summary="the folders", responses=answers("folders"))
    async def folders() -> Response:
        found = []
        for served in service.folders.values():
            with served.used() as copy:
                found.append(answering.folder_value(served, copy))
        return Response(json_bytes({"folders": found}), media_type=JSON)

    @app.get("/api/folders/{folder}", summary="a folder", responses=answers("folder"))
    async def one_folder(folder: str) -> Response:
        served = served_of(service, folder)
        found = await service.about(served, lambda copy: answering.folder_value(served, copy))
        return reply(*found, JSON)

    @app.get("/api/folders/{folder}/vehicles", summary="its lorries", responses=answers("vehicles"))
    async def vehicles(folder: str) -> Response:
        return reply(
            *await service.about(served_of(service, folder), answering.vehicles_value), JSON
        )

    add_places(app, service)


def add_places(app: FastAPI, service: Service) -> None:
    """Adds the questions about places and roads."""
    most_field = Query(10, ge=1, le=MOST_PLACES)
    name_field = Query(..., max_length=bodies.MOST_LETTERS)
    degrees = Query(None, ge=-180, le=180)

    @app.get(
        "/api/folders/{folder}/places",
        summary="places by name",
        responses=answers("found_places"),
    )
    async def places(folder: str, name: str = name_field, most: int = most_field) -> Response:
        served = served_of(service, folder)
        found = await service.about(served, lambda it: answering.places_value(it, name, most))
        return reply(*found, JSON)

    @app.get(
        "/api/folders/{folder}/streets",
        summary="streets by name",
        responses=answers("found_streets"),
    )
    async def streets(folder: str, name: str = name_field, most: int = most_field) -> Response:
        served = served_of(service, folder)
        found = await service.about(served, lambda it: answering.streets_value(it, name, most))
        return reply(*found, JSON)

    @app.get(
        "/api/folders/{folder}/nearest",
        summary="the nearest place",
        responses=answers("found_place"),
    )
    async def nearest(
        folder: str,
        latitude: float = Query(..., ge=-90, le=90),
        longitude: float = Query(..., ge=-180, le=180),
    ) -> Response:
        served = served_of(service, folder)
        found = await service.about(
            served, lambda it: answering.nearest_value(it, latitude, longitude)
        )
        return reply(*found, JSON)

    @app.get("/api/folders/{folder}/roads", summary="its roads", responses=answers("roads"))
    async def roads(
        request: Request,
        folder: str,
        west: Optional[float] = degrees,
        south: Optional[float] = degrees,
        east: Optional[float] = degrees,
        north: Optional[float] = degrees,
        most: int = Query(4_000, ge=1, le=MOST_ROADS),
    ) -> Response:
        served = served_of(service, folder)
        box = box_of(west, south, east, north)
        with served.used() as copy:
            tag = f'"{copy.version}"'
        headers = {"ETag": tag, "Cache-Control": "no-cache"}
        if request.headers.get("if-none-match") == tag:
            return Response(status_code=304, headers=headers)
        version, text = await service.about(served, lambda it: it.roads.collection(box, most))
        headers["ETag"] = f'"{version}"'
        return Response(text, headers={**headers, "Folder-Version": version}, media_type=GEOJSON)


def box_of(
    west: Optional[float], south: Optional[float], east: Optional[float], north: Optional[float]
) -> Optional[Box]:
    """Returns the box of four degrees; none where none is given."""
    if west is None and south is None and east is None and north is None:
        return None
    if west is None or south is None or east is None or north is None:
        raise Problem("a box has all of west, south, east and north")
    return Box(west, south, east, north)


def add_trips(app: FastAPI, service: Service) -> None:
    """Adds the questions about trips."""
    router = APIRouter(route_class=TripRoute)

    def trip(path: str, about: str, *texts: str) -> Callable[[Handler], Handler]:
        return router.post(
            f"/api/folders/{{folder}}/{path}", summary=about, responses=answers("trip", *texts)
        )

    @trip("plan", "plan a trip", *TEXTS, "image/svg+xml")
    async def plan(folder: str, body: bodies.PlanBody, form: DrawnForm = "json") -> Response:
        return reply(*await service.trip(served_of(service, folder), body, form))

    @trip("latest", "how late a trip may leave", *TEXTS)
    async def latest(folder: str, body: bodies.LatestBody, form: Form = "json") -> Response:
        return reply(*await service.trip(served_of(service, folder), body, form))

    @trip("tour", "plan a trip over stops", *TEXTS)
    async def tour(folder: str, body: bodies.TourBody, form: Form = "json") -> Response:
        return reply(*await service.trip(served_of(service, folder), body, form))

    @trip("breaks", "plan a trip with breaks", *TEXTS, "image/svg+xml")
    async def breaks(folder: str, body: bodies.BreaksBody, form: DrawnForm = "json") -> Response:
        return reply(*await service.trip(served_of(service, folder), body, form))

    @trip("explain", "why not another way")
    async def explain(folder: str, body: bodies.ExplainBody) -> Response:
        return reply(*await service.trip(served_of(service, folder), body, "json"))

    @trip("why-empty", "why there is no option")
    async def why_empty(folder: str, body: bodies.TripBody) -> Response:
        body.reasons = True
        return reply(*await service.trip(served_of(service, folder), body, "json"))

    app.include_router(router)

    @app.post(
        "/api/folders/{folder}/bans", summary="when roads are closed", responses=answers("bans")
    )
    async def bans(folder: str, body: bodies.BansBody) -> Response:
        return reply(*await service.bans(served_of(service, folder), body))


def add_pages(app: FastAPI) -> None:
    """Adds the desk, and the library of its map."""

    @app.get("/", include_in_schema=False)
    async def index() -> Response:
        path = os.path.join(PAGES, "index.html")
        if not os.path.isfile(path):
            raise HTTPException(404, "this package has no desk: the questions are under /api")
        return FileResponse(path, media_type="text/html")

    for address, place in (("/desk", PAGES), ("/leaflet", LEAFLET)):
        if os.path.isdir(place):
            app.mount(address, StaticFiles(directory=place))


def openapi_of(app: FastAPI) -> dict[str, Any]:
    """Returns the schema of all addresses, as OpenAPI 3.1 has it."""
    if not app.openapi_schema:
        found = get_openapi(
            title=app.title,
            version=app.version,
            openapi_version="3.1.0",
            description=" ".join(ABOUT.split()),
            routes=app.routes,
        )
        parts = found.setdefault("components", {}).setdefault("schemas", {})
        for name in ("HTTPValidationError", "ValidationError"):
            parts.pop(name, None)
        parts.update(components())
        for methods in found["paths"].values():
            for method in methods.values():
                method["responses"].pop("422", None)
        found["components"]["schemas"] = dict(sorted(parts.items()))
        app.openapi_schema = found
    return app.openapi_schema
