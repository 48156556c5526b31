"""The parts of `.ci/page`: what stands before and behind the page, the browser that it is driven in, and the tries."""
