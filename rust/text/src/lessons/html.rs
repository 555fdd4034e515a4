//! The frame of a page: one file without any other, which asks the network for nothing.

pub(crate) use crate::svg::escaped;

/// What a page may load: nothing. Its own style and script stand in it.
const POLICY: &str = "default-src 'none'; style-src 'unsafe-inline'; script-src 'unsafe-inline'";

/// A whole page; the title is plain words, the body markup.
pub fn page(title: &str, style: &str, body: &str) -> String {
    let head = format!(
        "<meta charset=\"utf-8\">\n<meta http-equiv=\"Content-Security-Policy\" content=\"{}\">\n\
         <meta name=\"viewport\" content=\"width=device-width, initial-scale=1\">\n\
         <meta name=\"color-scheme\" content=\"light dark\">\n<title>{}</title>\n<style>\n{}</style>\n",
        POLICY,
        escaped(title),
        style
    );
    format!(
        "<!doctype html>\n<html lang=\"en\">\n<head>\n{}</head>\n<body>\n<main>\n{}</main>\n</body>\n</html>\n",
        head, body
    )
}

/// An object for a script, and the script. No `<` is left in the object, so that no name ends it.
pub fn scripted(object: &str, script: &str) -> String {
    let object = object.replace('<', "\\u003c");
    format!(
        "<script type=\"application/json\" id=\"data\">{}</script>\n<script>\n{}</script>\n",
        object.trim_end(),
        script
    )
}

/// A paragraph of plain words.
pub fn paragraph(words: &str) -> String {
    format!("<p>{}</p>\n", escaped(words))
}
