"""What git-gittuf is made of. Each module says what it is for; `work` puts them together."""
