let e = <p>/* text */</p>;
