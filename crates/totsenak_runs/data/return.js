return /a[/]b/g;
