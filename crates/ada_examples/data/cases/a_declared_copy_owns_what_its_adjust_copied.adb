with Ada.Finalization; with Ada.Text_IO; with Ada.Unchecked_Deallocation;
procedure Main is
   type Word is record Letters : Integer := 0; end record;
   type Ink is access Word;
   type Note is new Ada.Finalization.Controlled with record Text : Ink; end record;
   overriding procedure Adjust (Object : in out Note);
   overriding procedure Finalize (Object : in out Note);
   procedure Free is new Ada.Unchecked_Deallocation (Word, Ink);
   overriding procedure Adjust (Object : in out Note) is
      Fresh : Ink;
   begin
      if Object.Text /= null then
         Fresh := new Word'(Letters => Object.Text.Letters);
      end if;
      Object.Text := Fresh;
   exception
      when Storage_Error | Constraint_Error =>
         Ada.Text_IO.Put_Line ("no word");
         Object.Text := null;
   end Adjust;
   overriding procedure Finalize (Object : in out Note) is
   begin
      if Object.Text = null then
         Ada.Text_IO.Put_Line ("empty");
      else
         Ada.Text_IO.Put_Line (Integer'Image (Object.Text.Letters));
      end if;
      Free (Object.Text);
   exception
      when Constraint_Error => null;
   end Finalize;
   Draft : Note;
begin
   Draft.Text := new Word'(Letters => 7);
   declare
      Clean : Note := Draft;
   begin
      Clean.Text.Letters := 8;
   end;
end Main;
