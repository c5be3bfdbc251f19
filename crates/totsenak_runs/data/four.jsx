let e = <p>/*! text */</p>; //! Four
