"""What the files of tests share.

- The program: `program` runs its commands, `runs` reads tables of them, `ids` names rows, and `servers` has it serve.
- Its stores: `stores`, `shelves`, `worked`, `worked_rows`, `keys`, `tables`, `sums` and `older` make and read them.
- Requests: `messages` has their bytes, and `peers` who makes them; `kills` publishes and is killed; `refusals` has the
  words of what is refused.
- The machine: `needs` finds what it lacks; `scratch`, `ports` and `terminal` give folders, ports and a terminal.
- The pages of the repository: `pages` finds their blocks of code.
- The go command: `modules`, `repositories`, `go_command` and `go_sessions`.
- goshelf-publish: `publishing` and `publish_sentences`; jobs of CI that run it: `ci_services`.
- The pages of a shelf: `catalog_lines`, `catalog_store`, `catalog_example`, `catalog_zips`, `catalog_words`,
  `catalog_pages`, `catalog_front`, `catalog_looks` and `browser`, from their lines to those who look at them.
- Machines and hosts behind nginx: `machine`, `systemd`, `front`, `behind_nginx`, `shards`, `operating`, `hosts`,
  `company`, `warm` and `outside`, and `releases` and `packages`, which are installed there.
- Those who use them: `logins`, `developers`, `own_keys` and `keys_unit`; `leaks` has keys in requests, and a search.
"""
