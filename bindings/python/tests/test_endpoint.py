"""What an endpoint does around the engine: its limits, its stores, what it tells, and what wrong requests are answered."""

import asyncio
import hashlib
import json
import threading
import time
import unittest
from concurrent.futures import ThreadPoolExecutor

from serving_schemas import NEW, OLD, RESOLVERS, asked, endpoint, messages, posted
from sunwaket.http import Fault, Limits, ListedDocuments, MemoryDocuments, Request, context

COUNT = "{ count }"
COUNTED = (200, {"data": {"count": 1}})


def sum_of(text):
    return hashlib.sha256(text.encode()).hexdigest()


def named(key):
    """The extensions that name a persisted query."""
    return {"persistedQuery": {"version": 1, "sha256Hash": key}}


# A limit, a query above it, the message, the status for the newer media type and for the older one, and a query within it.
LIMITS = [
    (Limits(depth=2), "{ books { next { id } } }", "the query is nested deeper than 2", 400, 200, "{ books { id } }"),
    (Limits(items=10, nodes=20), "{ books { id } }", "cost above limit", 400, 200, COUNT),
    (Limits(rounds=2), "{ books { next { id } } }", "the query takes more than 2 rounds", 400, 200, "{ books { id } }"),
    (Limits(asks=4), "{ books { id title } }", "the query asks more than 4 fields of objects", 400, 200, "{ books { id } }"),
    (Limits(body=60), COUNT + " " * 60, "the request has more than 60 bytes", 413, 413, COUNT),
]


class LimitsOfRequests(unittest.TestCase):
    def test_each_limit(self):
        for limits, above, message, new, old, within in LIMITS:
            with self.subTest(message):
                of = endpoint(limits=limits)
                self.assertEqual(asked(of, above), (new, {"errors": [{"message": message}]}))
                self.assertEqual(asked(of, above, accept=OLD)[0], old)
                status, response = asked(of, within)
                self.assertEqual((status, messages(response)), (200, []))

    def test_depth_goes_through_fragments(self):
        of = endpoint(limits=Limits(depth=2))
        text = "{ books { ...A } } fragment A on Book { ...B } fragment B on Book { next { id } }"
        self.assertEqual(asked(of, text)[0], 400)
        self.assertEqual(asked(of, text.replace("next { id }", "id"))[0], 200)

    def test_time_is_looked_at_between_rounds(self):
        slow = {**RESOLVERS, "Query": {**RESOLVERS["Query"], "books": lambda root, arguments: time.sleep(0.05) or [{"id": "1"}]}}
        status, response = asked(endpoint(resolvers=slow, limits=Limits(seconds=0.01)), "{ books { id } }")
        self.assertEqual((status, messages(response)), (503, ["the operation took more than 0.01 seconds"]))

    def test_an_awaited_resolver_that_never_ends_ends_its_own_request(self):
        async def never(root, arguments):
            await asyncio.sleep(3600)

        of = endpoint(resolvers={"Query": {**RESOLVERS["Query"], "late": never}}, limits=Limits(seconds=0.2))

        async def both():
            return await asyncio.gather(of.answer_async(posted("{ late }")), of.answer_async(posted(COUNT)))

        late, other = asyncio.run(both())
        self.assertEqual((late.status, other.status), (503, 200))

    def test_a_thread_that_never_ends_ends_its_own_request(self):
        held = threading.Event()
        told = []
        late = {"Query": {**RESOLVERS["Query"], "late": lambda root, arguments: held.wait(60) and None}}
        of = endpoint(resolvers=late, limits=Limits(seconds=0.2), watch=told.append)

        async def both():
            with ThreadPoolExecutor(2) as threads:
                found = await asyncio.gather(of.answer_async(posted("{ late }"), threads), of.answer_async(posted(COUNT), threads))
                held.set()
                return found

        late, other = asyncio.run(both())
        self.assertEqual((late.status, other.status), (503, 200))
        self.assertEqual(sorted(it.status for it in told), [200, 503])

    def test_batches_only_where_they_are_asked_for(self):
        body = json.dumps([{"query": COUNT}, {"query": "{ nope }"}, {"quarry": COUNT}]).encode()
        request = Request("POST", {"content-type": OLD, "accept": NEW}, body)
        self.assertEqual(endpoint().answer(request).status, 400)
        self.assertEqual(endpoint(limits=Limits(batch=2)).answer(request).status, 400)
        answer = endpoint(limits=Limits(batch=3)).answer(request)
        first, second, third = json.loads(answer.body)
        self.assertEqual((answer.status, first), COUNTED)
        self.assertEqual((list(second), list(third)), (["errors"], ["errors"]))


class Queries(unittest.TestCase):
    def test_a_repeated_query_is_read_once(self):
        of = endpoint()
        for _ in range(3):
            self.assertEqual(asked(of, COUNT), COUNTED)
        self.assertEqual((of.queries.read, of.queries.found), (1, 2))

    def test_the_store_is_bounded_and_the_least_recently_used_goes(self):
        of = endpoint(room=40_000)
        for text in ("{ a: count }", "{ b: count }", "{ a: count }", "{ c: count }", "{ d: count }"):
            asked(of, text)
        self.assertLessEqual(len(of.queries), 3)
        before = of.queries.read
        asked(of, "{ d: count }")
        self.assertEqual(of.queries.read, before)
        asked(of, "{ b: count }")
        self.assertEqual(of.queries.read, before + 1)

    def test_one_that_does_not_fit_is_answered_all_the_same(self):
        of = endpoint(room=1000)
        self.assertEqual(asked(of, COUNT), COUNTED)
        self.assertEqual(len(of.queries), 0)

    def test_a_refused_query_is_not_kept(self):
        of = endpoint()
        asked(of, "{ nope }")
        self.assertEqual(len(of.queries), 0)

    def test_names_of_no_operation_are_not_kept(self):
        of = endpoint()
        for number in range(5):
            self.assertEqual(asked(of, "query A { count }", operationName=f"B{number}")[0], 400)
        self.assertEqual(len(of.queries.get("query A { count }")._known), 0)


class Persisted(unittest.TestCase):
    def test_a_query_is_named_by_its_sum(self):
        of, key = endpoint(documents=MemoryDocuments()), sum_of(COUNT)
        status, response = asked(of, extensions=named(key))
        self.assertEqual((status, response["errors"][0]["extensions"]["code"]), (400, "PERSISTED_QUERY_NOT_FOUND"))
        self.assertEqual(messages(response), ["PersistedQueryNotFound"])
        self.assertEqual(asked(of, COUNT, extensions=named(key)), COUNTED)
        self.assertEqual(asked(of, extensions=named(key)), COUNTED)

    def test_a_wrong_sum_is_refused_and_nothing_kept(self):
        of, key = endpoint(documents=MemoryDocuments()), sum_of("{ other }")
        self.assertEqual(asked(of, COUNT, extensions=named(key))[0], 400)
        self.assertEqual(messages(asked(of, extensions=named(key))[1]), ["PersistedQueryNotFound"])

    def test_a_refused_query_is_not_kept(self):
        of = endpoint(documents=MemoryDocuments())
        asked(of, "{ nope }", extensions=named(sum_of("{ nope }")))
        self.assertEqual(messages(asked(of, extensions=named(sum_of("{ nope }")))[1]), ["PersistedQueryNotFound"])

    def test_what_names_nothing_rightly(self):
        of = endpoint(documents=MemoryDocuments())
        wrong = [None, [], {}, {"version": 2, "sha256Hash": sum_of(COUNT)}, {"version": 1, "sha256Hash": "ab"}, {"version": 1, "sha256Hash": 7}]
        for given in wrong:
            with self.subTest(given):
                self.assertIn(asked(of, extensions={"persistedQuery": given})[0], (400,))

    def test_without_a_store(self):
        self.assertEqual(messages(asked(endpoint(), extensions=named(sum_of(COUNT)))[1]), ["PersistedQueryNotSupported"])

    def test_the_store_is_bounded(self):
        store = MemoryDocuments(room=3 * 440)
        for number in range(10):
            store.put(sum_of(str(number)), str(number))
        self.assertIsNone(store.get(sum_of("0")))
        self.assertEqual(store.get(sum_of("9")), "9")

    def test_only_listed_ones(self):
        of = endpoint(documents=ListedDocuments([COUNT]))
        self.assertEqual(asked(of, extensions=named(sum_of(COUNT))), COUNTED)
        self.assertEqual(asked(of, COUNT), COUNTED)
        self.assertEqual(asked(of, "{ a: count }")[0], 403)
        self.assertEqual(asked(of, "{ a: count }", extensions=named(sum_of("{ a: count }")))[0], 403)
        self.assertEqual(asked(of, extensions=named(sum_of("{ a: count }")))[0], 403)


class Resolving(unittest.TestCase):
    def test_context_comes_from_the_request(self):
        resolvers = {"Query": {"who": lambda root, arguments: context()}}
        of = endpoint(resolvers=resolvers, context=lambda request: request.headers.get("authorization"))
        request = posted("{ who }")
        for name in ("ada", "bob"):
            told = of.answer(request._replace(headers={**request.headers, "authorization": name}))
            self.assertEqual(json.loads(told.body), {"data": {"who": name}})
        self.assertIsNone(context())

    def test_two_requests_at_once_have_their_own_context(self):
        async def who(root, arguments):
            await asyncio.sleep(0.01)
            return context()

        of = endpoint(resolvers={"Query": {"who": who}}, context=lambda request: request.headers["authorization"])

        async def all_of():
            made = [posted("{ who }") for _ in range(8)]
            made = [it._replace(headers={**it.headers, "authorization": str(at)}) for at, it in enumerate(made)]
            return await asyncio.gather(*[of.answer_async(it) for it in made])

        self.assertEqual([json.loads(it.body)["data"]["who"] for it in asyncio.run(all_of())], [str(at) for at in range(8)])

    def test_a_context_may_refuse(self):
        def refuse(request):
            raise Fault(401, "who are you?", WWW_Authenticate="Bearer")

        answer = endpoint(context=refuse).answer(posted(COUNT))
        self.assertEqual((answer.status, answer.headers["WWW-Authenticate"]), (401, "Bearer"))
        self.assertEqual(json.loads(answer.body), {"errors": [{"message": "who are you?"}]})

    def test_a_context_that_fails_tells_nothing(self):
        with self.assertLogs("sunwaket.http", "ERROR"):
            status, response = asked(endpoint(context=lambda request: request.secret), COUNT)
        self.assertEqual((status, messages(response)), (500, ["internal error"]))

    def test_a_resolver_that_raises_or_gives_a_wrong_type_is_an_error_of_its_field(self):
        status, response = asked(endpoint(), "{ count fails wrong }")
        self.assertEqual((status, response["data"]), (200, {"count": 1, "fails": None, "wrong": None}))
        self.assertEqual([error["path"] for error in response["errors"]], [["fails"], ["wrong"]])

    def test_errors_may_be_masked(self):
        seen = []
        of = endpoint(mask=lambda error: seen.append(str(error)) or "internal error")
        self.assertNotIn("secret", json.dumps(asked(of, "{ fails }")[1]))
        self.assertEqual(seen, ["a secret"])

    def test_introspection_may_be_off(self):
        text = "{ __schema { queryType { name } } }"
        self.assertEqual(asked(endpoint(), text)[1]["data"]["__schema"]["queryType"], {"name": "Query"})
        self.assertNotIn("queryType", json.dumps(asked(endpoint(introspection=False), text)[1].get("data")))

    def test_a_resolver_of_no_field_is_told_at_once(self):
        with self.assertRaises(ValueError):
            endpoint(resolvers={"Query": {"nope": fails_not}})

    def test_threads_share_an_endpoint(self):
        of, wrong = endpoint(room=60_000), []

        def work(number):
            for at in range(100):
                found = asked(of, f"query($t: ID) {{ a{(number + at) % 7}: echo(id: $t) books {{ id next {{ title }} }} }}", variables={"t": "x"})
                if found[0] != 200 or found[1]["data"]["books"][1]["next"] != {"title": "N"}:
                    wrong.append(found)

        threads = [threading.Thread(target=work, args=[number]) for number in range(8)]
        for thread in threads:
            thread.start()
        for thread in threads:
            thread.join()
        self.assertEqual(wrong, [])


def fails_not(root, arguments):
    return None


class Watching(unittest.TestCase):
    def test_each_operation_is_told(self):
        told = []
        of = endpoint(watch=told.append, limits=Limits(items=10, nodes=1000))
        asked(of, "query A { books { next { id } } fails }")
        asked(of, "{ nope }")
        asked(of, "mutation { rename { id } }")
        seen = [(it.name, it.kind, it.rounds, it.asks, it.errors, it.status) for it in told]
        self.assertEqual(seen, [("A", "query", 3, 6, 1, 200), (None, None, 0, 0, 1, 400), (None, "mutation", 2, 2, 0, 200)])
        self.assertGreater(told[0].cost, 10)
        self.assertTrue(all(it.seconds >= it.engine_seconds >= 0 <= it.resolver_seconds for it in told))

    def test_a_hook_that_fails_spoils_nothing(self):
        with self.assertLogs("sunwaket.http", "ERROR"):
            self.assertEqual(asked(endpoint(watch=lambda it: it.nope), COUNT), COUNTED)

    def test_one_line_in_the_log(self):
        with self.assertLogs("sunwaket.http.operations", "INFO") as log:
            asked(endpoint(), "query A { count }")
        self.assertRegex(log.output[0], r"query A status=200 errors=0 rounds=1 asks=1 ms=[0-9.]+ engine_ms=[0-9.]+$")


# A body, and the status that it has: each answer is a GraphQL error.
WRONG = [
    (b"", 400),
    (b"null", 400),
    (b"7", 400),
    (b"[]", 400),
    (b"{}", 400),
    (b'{"query":null}', 400),
    (b'{"query":"\\ud800"}', 400),
    (b'{"query":"{ count }","operationName":"\\ud800"}', 400),
    (b'{"query":"query($i: ID) { echo(id: $i) }","variables":{"i":"\\ud800"}}', 400),
    (b'{"query":"{ count }","variables":{"i":NaN}}', 400),
    (b'{"query":"query($i: ID) { echo(id: $i) }","variables":{"i":1.5}}', 400),
    (b'{"query":"{ count }","variables":' + b'{"a":' * 5000 + b"1" + b"}" * 5001, 400),
    (b'{"query":"' + b"{ books " * 3000 + b'"}', 400),
    (b'{"query":"{ count }","variables":{"i":' + b"9" * 5000 + b"}}", 400),
    (b'{"query":"\\u0000"}', 400),
    (b'\xef\xbb\xbf{"query":"{ count }"}', 400),
]


class Wrong(unittest.TestCase):
    def test_each_wrong_body_has_its_status_and_an_error(self):
        of = endpoint()
        for body, status in WRONG:
            with self.subTest(body[:80]):
                answer = of.answer(Request("POST", {"content-type": OLD, "accept": NEW}, body))
                self.assertEqual(answer.status, status, answer.body[:200])
                response = json.loads(answer.body)
                self.assertTrue(response["errors"][0]["message"])
                self.assertNotIn("data", response)
        self.assertEqual(asked(of, COUNT), COUNTED)

    def test_damaged_requests_are_answered_and_none_by_500(self):
        import random

        chance, of = random.Random(7), endpoint(limits=Limits(batch=2))
        whole = json.dumps({"query": "query A($i: ID) { echo(id: $i) books { id } }", "variables": {"i": "1"}, "operationName": "A"}).encode()
        for _ in range(400):
            body = bytearray(whole)
            for _ in range(chance.randrange(1, 4)):
                body[chance.randrange(len(body))] = chance.randrange(256)
            answer = of.answer(Request("POST", {"content-type": OLD, "accept": NEW}, bytes(body)))
            self.assertIn(answer.status, (200, 400), bytes(body))
            self.assertTrue("data" in json.loads(answer.body) or json.loads(answer.body)["errors"])


if __name__ == "__main__":
    unittest.main()
