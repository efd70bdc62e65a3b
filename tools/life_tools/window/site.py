"""Routes the site: which page answers which path, how its answer is sent, and what is shown if there is none."""
from __future__ import annotations

import datetime
import importlib
import os
import pkgutil
import traceback
from typing import Any, Callable
from urllib.parse import quote, urlencode

from life_tools.common.formats import Wrong
from life_tools.common.program import UNPROVED, Program
from life_tools.common.revisions import revision
from life_tools.window import (audit_pages, compare_pages, day_pages, find_pages, first_page, group_pages, month_pages,
                               policy_pages, posting_pages, stand_pages, statement_lists, statement_pages)
from life_tools.window.asked import Asked, BadRequest, label, shown
from life_tools.window.book_copy import BookCopy
from life_tools.window.door import Application, Door
from life_tools.window.downloads import warned
from life_tools.window.jobs import Failed, Job, TooMuch, Working
from life_tools.window.moments import moment_of, timeline
from life_tools.window.parts import Answer, Elsewhere, File, Page, Progress
from life_tools.window.views import POSITIONS, Gone, View, address, view_of

PACKAGE = "life_tools.window"
Show = Callable[[View, Asked], Answer]
PAGES: dict[str, Show] = {
    "": first_page.first_page, "year-ends": first_page.year_ends, "find": find_pages.find, "policy": policy_pages.policy,
    "moment": moment_of, "premiums": posting_pages.premiums, "postings": posting_pages.postings, "held": posting_pages.held,
    "refusals": posting_pages.refusals,
    "day": day_pages.day, "day/list": day_pages.day_list, "day/list.csv": day_pages.day_csv, "day/lines.csv": day_pages.day_lines,
    "month": month_pages.month, "report": month_pages.report, "report.csv": month_pages.report_csv,
    "report.xlsx": month_pages.report_xlsx, "group": group_pages.group, "bases": compare_pages.bases,
    "movement": month_pages.movement, "movement.csv": month_pages.movement_csv, "movement.xlsx": month_pages.movement_xlsx,
    "movement-policies.csv": month_pages.movement_policies, "moved": group_pages.moved,
    "statement": statement_pages.statement, "statement.csv": statement_pages.statement_csv,
    "statement.xlsx": statement_pages.statement_xlsx, "statement/cell": statement_lists.cell,
    "audit": audit_pages.audit, "seal.txt": audit_pages.seal_file, "flags": audit_pages.flags, "flags.csv": audit_pages.flags_csv,
    "sample": audit_pages.sample, "sample.txt": audit_pages.sample_file, "papers.html": audit_pages.papers,
    "letters.csv": audit_pages.letters, "letters.html": audit_pages.letters_page,
    "stands": stand_pages.stands, "newest": stand_pages.newest,
}
# the pages of the menu
MENU = {"": "Book", "find": "Find", "day": "The day", "month": "Month and year", "audit": "Audit", "stands": "How it stands"}
UNDER = {"policy": "find", "report": "month", "movement": "month", "statement": "month", "day/list": "day", "flags": "audit",
         "sample": "audit", "premiums": "", "postings": "", "held": "", "refusals": "", "group": "month", "moved": "month",
         "bases": "month", "statement/cell": "month"}
# the page with the link to each file
OF_FILE = {"day/list.csv": "day/list", "day/lines.csv": "day/list", "report.csv": "report", "report.xlsx": "report",
           "movement.csv": "movement", "movement.xlsx": "movement", "movement-policies.csv": "movement",
           "statement.csv": "statement", "statement.xlsx": "statement", "seal.txt": "audit", "flags.csv": "flags",
           "sample.txt": "sample", "papers.html": "sample", "letters.csv": "sample", "letters.html": "sample"}
# the page that each frame belongs to; the door lets only these be shown in a frame
FRAMES = {"year-ends": ""}
# seconds after which the page of a piece of work reloads. No page with a field reloads by itself.
REFRESH = 1


def file_of_package(name: str) -> bytes:
    """Returns a file beside this module, also if all modules are packed into one file."""
    found = pkgutil.get_data(PACKAGE, name)
    assert found is not None
    return found


class Site:
    """The books of a window, and the Flask application that shows them."""

    def __init__(self, books: list[BookCopy], door: Door, program: Program) -> None:
        self.flask: Any = importlib.import_module("flask")
        jinja: Any = importlib.import_module("jinja2")
        self.books, self.door, self.root, self.program = books, door, door.prefix, program
        self.pages: dict[str, Show] = {**PAGES, "share": self.share}
        self.origin = f"program {program.told()} · tools {revision()[:12]}"
        nowhere = os.path.join(os.path.dirname(books[0].folder), "nothing")
        self.app: Any = self.flask.Flask(PACKAGE, static_folder=None, template_folder=None, root_path=nowhere,
                                         instance_path=nowhere)
        self.app.jinja_env.loader = jinja.FunctionLoader(lambda name: file_of_package(f"templates/{name}").decode())
        self.app.jinja_env.trim_blocks = self.app.jinja_env.lstrip_blocks = True
        self.app.jinja_env.globals.update(is_proved=program.is_proved)
        self.app.add_url_rule("/", "books", self.first)
        self.app.add_url_rule("/window.css", "style", lambda: self.file("window.css", "text/css"))
        self.app.add_url_rule("/window.svg", "icon", lambda: self.file("window.svg", "image/svg+xml"))
        self.app.add_url_rule("/<int:number>/", "book", self.shown, defaults={"name": ""})
        self.app.add_url_rule("/<int:number>/<path:name>", "page", self.shown)
        self.app.register_error_handler(Exception, self.failed)

    @property
    def application(self) -> Application:
        application: Application = self.app.wsgi_app
        return application

    # --- answers ---

    def first(self) -> Any:
        if len(self.books) == 1:
            return self.flask.redirect(address(self.root, 1, "", {}), 303)
        return self.rendered("books.html", "Books", {"rows": [self.listed(book) for book in self.books]})

    def listed(self, book: BookCopy) -> dict[str, Any]:
        """Returns a book for the list of books, with its counts and sums once it is open."""
        found: dict[str, Any] = {"name": book.name, "link": address(self.root, book.number, "", {})}
        if not book.positions:
            return found
        kept = book.history(book.newest)
        lives, insured = (int(column[-1]) if len(column) else 0 for column in (kept.lives, kept.insured))
        return {**found, "count": book.newest, "lives": lives, "insured": insured}

    @property
    def port(self) -> int:
        return self.door.port

    def file(self, name: str, kind: str) -> Any:
        return self.flask.Response(file_of_package(name), mimetype=kind)

    def shown(self, number: int, name: str) -> Any:
        if not 1 <= number <= len(self.books):
            return self.told(404, "There is no such page", "Go on from the book's first page.")
        book, show = self.books[number - 1], self.pages.get(name)
        if show is None:
            return self.told(404, "There is no such page", "Go on from the book's first page.", book, name)
        try:
            book.open()
            asked = Asked(self.flask.request.args.items(multi=True))
            view = view_of(book, asked)
            return self.answered(view, name, show(view, asked), asked)
        except Working as working:
            return self.waiting(book, working.job, name)
        except BadRequest as wrong:
            return self.told(400, "That can't be asked", str(wrong), book, name)
        except Gone as wrong:
            return self.told(410, "This page can't be made any more", self.why_gone(book, wrong), book, name)
        except TooMuch as wrong:
            return self.told(429, "Too much at a time", str(wrong), book, name)
        except (Failed, Wrong) as wrong:
            return self.told(409, "That couldn't be done", str(wrong), book, name)
        except OSError as error:
            return self.told(409, "That couldn't be done", f"a file can't be read any more: {error.strerror}", book, name)

    def why_gone(self, book: BookCopy, wrong: Gone) -> str:
        return " ".join([str(wrong) + ".", *book.changes()])

    def answered(self, view: View, name: str, answer: Answer, asked: Asked) -> Any:
        if isinstance(answer, Elsewhere):
            return self.flask.redirect(answer.link, 303)
        if isinstance(answer, File):
            file = answer if self.program.is_proved else warned(answer, self.program.why)
            response = self.flask.Response(file.parts, mimetype=file.kind)
            response.headers["Content-Disposition"] = f'attachment; filename="{file.name}"'
            return response
        if isinstance(answer, Progress):
            return self.progress(answer)
        return self.page(answer.of or view, name, answer, asked)

    @staticmethod
    def words_of(asked: Asked) -> dict[str, object]:
        """Returns the arguments of a page without its position."""
        return {word: text for word, text in asked.words.items() if word not in ("at", "of", *POSITIONS)}

    def share(self, view: View, asked: Asked) -> Page:
        """Returns the address of a page for somebody else on this machine, with its own token."""
        of = asked.text("of")
        if of not in PAGES:
            raise BadRequest(f"Page: {shown(of)} is no page")
        page = view.link(of, **self.words_of(asked))
        return Page("share.html", "For a colleague", {"page": page, "address": self.door.invitation(page)})

    def page(self, view: View, name: str, answer: Page, asked: Asked) -> Any:
        copy, under = view.copy, UNDER.get(name, name)
        menu = [(says, view.link(page), page == under) for page, says in MENU.items()]
        is_newest = view.at == copy.newest
        changes = copy.changes()
        frame = {"menu": menu, "book": view, "behind": copy.behind() if is_newest and not copy.journal_change() else 0,
                 "changes": changes, "newest_link": view.newest_link("newest"),
                 "now": f"{datetime.datetime.now():%Y-%m-%d %H:%M}",
                 "newer": "" if is_newest else view.newest_link(name if name in MENU else ""),
                 "older_basis": "" if view.basis in (copy.basis, *self.others(copy)) else view.newest_link(under),
                 "times": timeline(view, name, asked),
                 "share": view.link("share", of=name, **self.words_of(asked)) if name in PAGES else ""}
        return self.rendered(answer.template, answer.title, {**frame, **answer.values})

    def progress(self, it: Progress, status: int = 200) -> Any:
        response = self.rendered("progress.html", "Progress", {"it": it}, status)
        return self.again(response, it.refresh) if it.refresh else response

    @staticmethod
    def others(copy: BookCopy) -> list[Any]:
        """Returns copied bases with other names, which are not older versions of the book's own basis."""
        return [each for each in copy.bases if each.name != copy.book.basis]

    def rendered(self, template: str, title: str, values: dict[str, Any], status: int = 200) -> Any:
        warning = "" if self.program.is_proved else f"{UNPROVED[:1].upper()}{UNPROVED[1:]}: {self.program.why}."
        text = self.flask.render_template(template, title=title, window=self, warning=warning, **values)
        return self.flask.Response(text.encode("utf-8", "replace"), status=status, mimetype="text/html")

    def again(self, response: Any, seconds: int) -> Any:
        """Makes a page or a frame that has no field reload by itself.

        The header names the address, since a page that was reached by an anchor would otherwise not be fetched again.
        """
        request = self.flask.request
        words = urlencode(list(request.args.items(multi=True)))
        response.headers["Refresh"] = f"{seconds}; url={self.root}{quote(request.path)}?{words}"
        return response

    def waiting(self, book: BookCopy, job: Job, name: str) -> Any:
        """Returns the page that is shown while work is done. A file comes as a download and leaves this page where it is, so the
        page then has a link back."""
        if name in FRAMES:
            return self.progress(Progress(f"{job.title[:1].upper()}{job.title[1:]}: {job.doing}", refresh=REFRESH), 202)
        words = {word: text for word, text in self.flask.request.args.items(multi=True) if word != "sheet"}
        back = address(self.root, book.number, OF_FILE[name], words) if name in OF_FILE else ""
        values = {"copy": book, "job": job, "back": back}
        return self.again(self.rendered("working.html", "One moment", values, 202), REFRESH)

    def told(self, status: int, what: str, why: str, book: BookCopy | None = None, name: str = "") -> Any:
        """Returns a page with a reason, with the menu and with what was typed, so that it can be corrected."""
        if book and name in FRAMES:
            page = address(self.root, book.number, FRAMES[name], {})
            return self.progress(Progress(f"{what}.", "Show the reason", page), status)
        values: dict[str, Any] = {"why": book.without_paths(why) if book else why, "copy": book, "status": status}
        if book and book.positions:
            values["menu"] = [(says, address(self.root, book.number, page, {}), page == UNDER.get(name, name))
                              for page, says in MENU.items()]
        if book and book.positions and name in PAGES:
            typed = [(word, text) for word, text in self.flask.request.args.items(multi=True) if word != "at"]
            values.update(typed=[(label(word), shown(word), text[:200]) for word, text in typed][:12],
                          action=address(self.root, book.number, name, {}), at=self.flask.request.args.get("at", "")[:20])
        return self.rendered("told.html", what, values, status)

    def failed(self, error: Exception) -> Any:
        """Handles what no page has caught: an unknown address, or a fault of the window itself."""
        code = getattr(error, "code", None)
        if isinstance(code, int) and 400 <= code < 500:
            return self.told(code, "There is no such page", "Go on from the book's first page.")
        # the operator sees the place in the traceback; the page has no path of the machine
        traceback.print_exception(error)
        return self.told(500, "The window has a fault", f"{type(error).__name__}: the page wasn't made; nothing else is changed.")
