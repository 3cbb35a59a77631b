"""The library's answers beside those that were worked out by hand, and beside the program's."""

import re
import subprocess
from concurrent.futures import ThreadPoolExecutor
from dataclasses import replace

from acpi_images.text import read, text_of
from builds import SECONDS
from jobs import (
    all_findings,
    at_random,
    confirmations,
    lines_of_sets,
    of_faults,
    of_sets,
    region,
    rows,
    shown_and_rebuilt,
    texts,
)


def filled(text):
    """The same image as one run, with zeros between its runs."""
    image, memory = read(text.encode()), bytearray()
    for start, run in zip(image.starts, image.runs):
        memory += bytes(start - image.starts[0] - len(memory)) + run
    return text_of({image.starts[0]: bytes(memory)}).decode()


def answered(program, job):
    """The job with the program's answer."""
    if job.lines is not None:
        return job
    ended = subprocess.run([program, *job.words], input=job.text, capture_output=True, timeout=600)
    # A hint may come after the refusal's line.
    told = ended.stdout.decode() or ended.stderr.decode().removeprefix("acpiset: ").partition("acpiset: hint: ")[0]
    if job.words[0] == "rebuild" and ended.returncode == 0:
        told = filled(told)
    return replace(job, lines=told, status=ended.returncode)


def all_jobs(program):
    """All that is asked, with answers."""
    with ThreadPoolExecutor() as pool:
        ask = lambda jobs: list(pool.map(lambda job: answered(program, job), jobs))
        known = [*rows(), *confirmations(), *all_findings(), *lines_of_sets()]
        asked = ask([*known, *of_sets(), *shown_and_rebuilt(), *region(), *at_random(), *texts()])
        return asked + ask(of_faults([job for job in asked if not job.is_faulty]))


def ways(job, seed):
    """The words for each way to pass the image."""
    if job.words[0] == "check":
        yield (*job.words, "--text")
    if not job.is_faulty:
        yield job.words
        yield (*job.words, "--pieces", str(seed))


def batch(jobs):
    for job, words in jobs:
        yield "".join(f"{word}\n" for word in (len(words), *words, len(job.text))).encode() + job.text


def chunks(jobs):
    """Lists of jobs for one process each."""
    chunk, size = [], 0
    for job, words in jobs:
        chunk.append((job, words))
        size += len(job.text) + 1000
        if size > 8_000_000:
            yield chunk
            chunk, size = [], 0
    if chunk:
        yield chunk


def wrong_answers(path, environment, jobs):
    """What is wrong with the library's answers to these jobs, one text for each."""
    ended = subprocess.run([path, "--batch"], input=b"".join(batch(jobs)), capture_output=True, timeout=SECONDS, env=environment)
    answers = re.findall(r"((?:[^=\n].*\n)*)= (\d+)\n", ended.stdout.decode())
    if len(answers) != len(jobs) or ended.returncode != 0 or ended.stderr:
        return [f"status {ended.returncode} after {len(answers)} of {len(jobs)} answers: {ended.stderr.decode(errors='replace')[-2000:]}"]
    faults = []
    for (job, words), (lines, status) in zip(jobs, answers):
        right = (job.lines, job.status)
        told = (lines, int(status))
        faults.append("" if told == right else f"{job.name}: {' '.join(words)}: {told}, not {right}")
    return faults


def compared(cases, build, scratch, jobs):
    """The library's answers beside those that are expected."""
    asked = list(chunks([(job, words) for seed, job in enumerate(jobs, 1) for words in ways(job, seed)]))
    path = build.path(scratch, "through_pieces")
    with ThreadPoolExecutor() as pool:
        for faults in pool.map(lambda chunk: wrong_answers(path, build.environment(), chunk), asked):
            for fault in faults:
                cases.count(f"through_pieces, {build.name}", fault)
