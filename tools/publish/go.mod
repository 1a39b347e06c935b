module example.com/goshelf-publish

go 1.19
