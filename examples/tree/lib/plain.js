// a comment, and no licence
export default 1;
