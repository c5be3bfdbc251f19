<a>don't</a>
