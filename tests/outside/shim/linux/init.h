/* lib/bch.c includes this and uses nothing of it. */
