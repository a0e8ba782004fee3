# sedck.m4 - sed scripts are judged by `make check`
#
# SEDCK_CHECK(SCRIPTS, [OPTIONS])
#
# SCRIPTS are paths from the top of the sources, with blanks between, and may have the signs of the shell, as scripts/*.sed. OPTIONS are
# those of sedck-explain, as --deny unbounded. Put a line @SEDCK_CHECK_RULES@ into the top Makefile.am, or into Makefile.in without Automake.
# Then `make check` fails where a script may run for ever or is refused, with a line for each finding, as compilers write them. Where
# sedck-explain is missing, or SEDCK_EXPLAIN is empty or no, this is said, and nothing fails. With Automake EXTRA_DIST must have the scripts,
# since `make distcheck` judges those of the package.
AC_DEFUN([SEDCK_CHECK], [dnl
AC_ARG_VAR([SEDCK_EXPLAIN], [sedck-explain, which judges sed scripts in `make check`])dnl
AS_CASE([${SEDCK_EXPLAIN-unset}],
    [no | ''], [SEDCK_EXPLAIN=no],
    [AC_PATH_PROG([SEDCK_EXPLAIN], [sedck-explain], [no])])
AC_SUBST([SEDCK_SCRIPTS], ["$1"])dnl
AC_SUBST([SEDCK_OPTIONS], ["$2"])dnl
SEDCK_CHECK_RULES='
check: sedck-check
.PHONY: sedck-check
sedck-check:
	@case "$(SEDCK_EXPLAIN)" in \
	no|"") echo "sedck-check: skipped, since sedck-explain is missing" ;; \
	*) cd "$(top_srcdir)" && "$(SEDCK_EXPLAIN)" --format gcc $(SEDCK_OPTIONS) -- $(SEDCK_SCRIPTS) ;; \
	esac
'
AC_SUBST([SEDCK_CHECK_RULES])dnl
m4_ifdef([_AM_SUBST_NOTMAKE], [_AM_SUBST_NOTMAKE([SEDCK_CHECK_RULES])])dnl
])
