/** </pre><script>x</script> */
let a = <b c="&lt;">{`\u202e${0x1f}`} ‮</b>; // "it's"
