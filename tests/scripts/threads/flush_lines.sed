/^usage/!p
