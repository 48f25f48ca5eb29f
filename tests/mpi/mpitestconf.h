/* mpitestconf.h: nothing to configure. */
