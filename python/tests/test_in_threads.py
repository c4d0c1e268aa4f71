"""The tests of the asyncio class, each that makes sense there run with the class for threads."""

import unittest

from in_threads import module

# Of each module of tests, those that are about an event loop: what it reports, cancelling, a load outside of it, a batch function that gives
# nothing to await, or that waits while others run (test_threads.py has the rounds in their place).
WITHOUT = {
    "test_cases_of_data_loader": [
        "test_batches_cached_results",
        "test_batches_loads_occuring_within_promises",
        "test_can_call_a_loader_from_a_loader",
        "test_batch_function_must_return_a_promise_not_a_value",
        "test_not_catching_a_primed_error_is_an_unhandled_rejection",
        "test_priming_an_error_is_none_where_it_is_not_loaded",
    ],
    "test_data_loader": [
        "test_a_batch_function_that_answers_at_once_is_refused",
        "test_a_cancelled_wait_leaves_the_others",
        "test_a_late_failure_leaves_the_newer_load",
        "test_a_plain_function_may_answer_another_awaitable",
        "test_a_load_outside_of_a_loop_is_refused_and_forgotten",
        "test_prime_takes_a_future_and_what_it_ends_with",
    ],
    "test_against_promise": [],
    "test_keys": [],
}


def load_tests(loader, _, pattern):
    return unittest.TestSuite(loader.loadTestsFromModule(module(name, without)) for name, without in WITHOUT.items())


if __name__ == "__main__":
    unittest.main()
