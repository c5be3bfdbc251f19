let b; /*! One */
/**
 * @preserve Three
 */
