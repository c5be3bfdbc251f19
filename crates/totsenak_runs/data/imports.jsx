import a from "b"; export default <a import="c">import "d" {import("e")}</a>;
