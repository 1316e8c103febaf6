"""What the scripts share that measure `bench_parts`, built, from its folder."""
import resource
import subprocess


def run(*words):
    """Processor seconds of a run of these words, and the line that it prints."""
    before = resource.getrusage(resource.RUSAGE_CHILDREN).ru_utime
    told = subprocess.run(["out/bench_parts", *map(str, words)], check=True, capture_output=True, text=True)
    return resource.getrusage(resource.RUSAGE_CHILDREN).ru_utime - before, told.stdout.strip()


def least(*words):
    """The least processor seconds of three runs."""
    return min(run(*words)[0] for _ in range(3))
