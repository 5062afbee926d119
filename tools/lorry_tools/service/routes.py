"""The addresses of trips, whose bodies are read by their own model alone.

FastAPI reads each part of a request by its general rules. Where a body is as its model has it, and
nothing else is asked, the answer is the same without these, in less time; any other request goes
the usual way, which says what is wrong with it."""
from __future__ import annotations

import json
from typing import Any, Callable, Coroutine, Optional

from fastapi import Request
from fastapi.responses import Response
from fastapi.routing import APIRoute
from pydantic import BaseModel

Handler = Callable[[Request], Coroutine[Any, Any, Response]]


class TripRoute(APIRoute):
    """An address of trips."""

    def get_route_handler(self) -> Handler:
        usual: Handler = super().get_route_handler()
        if self.body_field is None:
            return usual
        answer, model = self.endpoint, self.body_field.type_

        async def handle(request: Request) -> Response:
            body = await plain_body(request, model)
            if body is None:
                return await usual(request)
            found: Response = await answer(folder=request.path_params["folder"], body=body)
            return found

        return handle


async def plain_body(request: Request, model: type[Any]) -> Optional[BaseModel]:
    """Returns the body of a request that has nothing else; none where it isn't as the model has
    it."""
    if request.scope["query_string"]:
        return None
    try:
        value = json.loads(await request.body())
        found: Optional[BaseModel] = model(**value) if isinstance(value, dict) else None
    except (ValueError, RecursionError):
        return None
    return found
