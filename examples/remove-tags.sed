s/<[^>]*>//g
s/&lt;/</g
s/&gt;/>/g
s/&amp;/\&/g
