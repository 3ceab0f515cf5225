#!/usr/bin/env bash
# Checks the script of page/page.html by Debian's eslint: no fault that it knows, and small functions of few parameters.
# Without eslint the check is left out, which a line says.
cd "$(dirname "$0")/.." || exit 1
if ! command -v eslint >/dev/null; then
  echo "the page's script: left out, since there is no eslint"
  exit
fi
rules='{"no-unused-vars": 2, "no-undef": 2, "no-redeclare": 2, "no-unreachable": 2, "no-dupe-keys": 2, "eqeqeq": 2,
  "no-var": 2, "prefer-const": 2, "no-eval": 2, "no-implied-eval": 2, "no-useless-escape": 2, "max-params": [2, 5],
  "max-depth": [2, 4], "complexity": [2, 14], "max-lines-per-function": [2, 40]}'
sed '1,/^<script>$/d;/^<\/script>$/,$d' page/page.html |
  NODE_PATH=/usr/share/nodejs eslint --stdin --no-eslintrc --format unix --env browser,es2020 --parser-options=ecmaVersion:2020 --rule "$rules"
